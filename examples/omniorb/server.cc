// A server of omniORB for `orb call`: `Orb::Ping`, `Kinds::All`, and an object that is elsewhere. Usage: server FOLDER. It
// writes a reference of each into the folder, as ping.ior, kinds.ior and elsewhere.ior, and serves until it is killed.
#include <cstdlib>
#include <fstream>
#include <iostream>
#include <string>
#include <unistd.h>
#include "kinds.hh"
#include "ping.hh"

namespace {

class Ping : public POA_Orb::Ping {
public:
    CORBA::Short current() { return 7; }
    char* echo(const char* text) { return CORBA::string_dup(text); }
    void note() {}
};

// Says of each call that the object is elsewhere.
class Elsewhere : public POA_Orb::Ping {
public:
    explicit Elsewhere(CORBA::Object_ptr at) : at_(CORBA::Object::_duplicate(at)) {}
    CORBA::Short current() { throw omniORB::LOCATION_FORWARD(CORBA::Object::_duplicate(at_), 0); }
    char* echo(const char*) { throw CORBA::NO_PERMISSION(5, CORBA::COMPLETED_NO); }
    void note() {}

private:
    CORBA::Object_var at_;
};

class All : public POA_Kinds::All {
public:
    CORBA::Long limit() { return limit_; }
    void limit(CORBA::Long to) { limit_ = to; }

    Kinds::Reading turn(CORBA::Long percent) {
        if (percent < 0 || percent > 100) {
            throw Kinds::OutOfRange(percent, "0 to 100");
        }
        Kinds::Reading reading;
        reading.how = percent == 0 ? Kinds::shut : Kinds::ajar;
        reading.percent = percent;
        reading.checked = percent <= limit_;
        return reading;
    }

    // A count becomes a text, and a text its length as a count.
    Kinds::Choice* choose(const Kinds::Choice& from, CORBA::ULongLong& wide) {
        Kinds::Choice* to = new Kinds::Choice;
        if (from._d() == Kinds::shut) {
            to->text(std::to_string(from.count()).c_str());
            to->_d(Kinds::stuck);
            wide = 18446744073709551615ULL;
        } else {
            to->count(static_cast<CORBA::Long>(std::string(from.text()).size()));
            wide = 0;
        }
        return to;
    }

    // The newest one alone; and it after the others.
    Kinds::Readings* log(const Kinds::Reading& newest, Kinds::Readings& before) {
        Kinds::Readings* alone = new Kinds::Readings;
        alone->length(1);
        (*alone)[0] = newest;
        before.length(before.length() + 1);
        before[before.length() - 1] = newest;
        return alone;
    }

    // Both the other way round.
    Kinds::Bytes* reversed(const Kinds::Bytes& from, const Kinds::Row line, Kinds::Row back) {
        Kinds::Bytes* to = new Kinds::Bytes;
        to->length(from.length());
        for (CORBA::ULong i = 0; i < from.length(); ++i) {
            (*to)[i] = from[from.length() - 1 - i];
        }
        for (int i = 0; i < 3; ++i) {
            back[i] = line[2 - i];
        }
        return to;
    }

    // The last letter of the word, or the given one; and its code.
    CORBA::Char letter(CORBA::Char from, const char* word, CORBA::Octet& code) {
        std::string text(word);
        CORBA::Char last = text.empty() ? from : text[text.size() - 1];
        code = static_cast<CORBA::Octet>(last);
        return last;
    }

private:
    CORBA::Long limit_ = 50;
};

void write(CORBA::ORB_ptr orb, const std::string& path, CORBA::Object_ptr object) {
    CORBA::String_var text = orb->object_to_string(object);
    std::ofstream(path) << text.in();
}

}

int main(int argc, char** argv) {
    CORBA::ORB_var orb = CORBA::ORB_init(argc, argv);
    if (argc != 2) {
        std::cerr << "usage: server FOLDER" << std::endl;
        return 2;
    }
    std::string folder = argv[1];
    CORBA::Object_var root = orb->resolve_initial_references("RootPOA");
    PortableServer::POA_var poa = PortableServer::POA::_narrow(root);
    Ping ping;
    PortableServer::ObjectId_var ping_id = poa->activate_object(&ping);
    Orb::Ping_var ping_at = ping._this();
    Elsewhere elsewhere(ping_at);
    PortableServer::ObjectId_var elsewhere_id = poa->activate_object(&elsewhere);
    Orb::Ping_var elsewhere_at = elsewhere._this();
    All all;
    PortableServer::ObjectId_var all_id = poa->activate_object(&all);
    Kinds::All_var all_at = all._this();
    PortableServer::POAManager_var manager = poa->the_POAManager();
    manager->activate();
    write(orb, folder + "/ping.ior", ping_at);
    write(orb, folder + "/elsewhere.ior", elsewhere_at);
    write(orb, folder + "/kinds.ior", all_at);
    orb->run();
    return 0;
}
