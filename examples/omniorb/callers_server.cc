// A server of omniORB for `orb call --callers`: `current` answers how many calls came before it. The first call takes so
// many milliseconds, and each of the next fifteen a sixteenth of that less. Usage: callers_server FOLDER MILLISECONDS. It
// writes its reference into the folder, as callers.ior, and serves until it is killed.
#include <atomic>
#include <cstdlib>
#include <fstream>
#include <iostream>
#include <string>
#include <unistd.h>
#include "ping.hh"

namespace {

class Ping : public POA_Orb::Ping {
public:
    explicit Ping(int time) : time_(time) {}
    CORBA::Short current() {
        int before = calls_++;
        usleep(1000 * (time_ - time_ * (before % 16) / 16));
        return static_cast<CORBA::Short>(before);
    }
    char* echo(const char* text) { return CORBA::string_dup(text); }
    void note() {}

private:
    std::atomic<int> calls_{0};
    int time_;
};

}

int main(int argc, char** argv) {
    CORBA::ORB_var orb = CORBA::ORB_init(argc, argv);
    if (argc != 3) {
        std::cerr << "usage: callers_server FOLDER MILLISECONDS" << std::endl;
        return 2;
    }
    CORBA::Object_var root = orb->resolve_initial_references("RootPOA");
    PortableServer::POA_var poa = PortableServer::POA::_narrow(root);
    Ping ping(std::atoi(argv[2]));
    PortableServer::ObjectId_var id = poa->activate_object(&ping);
    Orb::Ping_var at = ping._this();
    PortableServer::POAManager_var manager = poa->the_POAManager();
    manager->activate();
    CORBA::String_var text = orb->object_to_string(at);
    std::ofstream(std::string(argv[1]) + "/callers.ior") << text.in();
    orb->run();
    return 0;
}
