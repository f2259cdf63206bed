// A client of `Plant::Valve` for omniORB. Usage: valve_client REFERENCE. It makes a call of each operation, and prints
// what came of each.
#include <iostream>
#include "valve.hh"

namespace {

void show(const char* what, const Plant::Reading& reading) {
    const char* how = reading.how == Plant::shut ? "shut" : reading.how == Plant::ajar ? "ajar" : "stuck";
    std::cout << what << ": " << how << " " << reading.percent << " at " << reading.level << std::endl;
}

void calls(Plant::Valve_ptr valve) {
    CORBA::String_var maker = valve->maker();
    std::cout << "maker: " << maker.in() << std::endl;
    std::cout << "limit: " << valve->limit() << std::endl;
    valve->limit(50);
    std::cout << "limit after a set of 50: " << valve->limit() << std::endl;
    show("turn 0", valve->turn(0));
    show("turn 55", valve->turn(55));
    try {
        show("turn 101", valve->turn(101));
    } catch (const Plant::OutOfRange& raised) {
        std::cout << "turn 101: OutOfRange " << raised.asked << " " << raised.why.in() << std::endl;
    }
    Plant::Reading newest = valve->turn(40);
    CORBA::Long count = 6;
    Plant::Readings_var readings = valve->log(newest, count);
    std::cout << "log: count " << count << " length " << readings->length() << std::endl;
    for (CORBA::ULong i = 0; i < readings->length(); ++i) {
        show("log", readings[i]);
    }
    valve->ring();
    CORBA::String_var text = valve->label("inlet");
    std::cout << "label: " << text.in() << std::endl;
}

}

int main(int argc, char** argv) {
    try {
        CORBA::ORB_var orb = CORBA::ORB_init(argc, argv);
        if (argc != 2) {
            std::cerr << "usage: valve_client REFERENCE" << std::endl;
            return 2;
        }
        CORBA::Object_var object = orb->string_to_object(argv[1]);
        Plant::Valve_var valve = Plant::Valve::_narrow(object);
        if (CORBA::is_nil(valve)) {
            std::cout << "another interface" << std::endl;
            return 1;
        }
        calls(valve);
        orb->destroy();
        return 0;
    } catch (const CORBA::SystemException& raised) {
        std::cout << raised._name() << " minor " << raised.minor() << std::endl;
        return 1;
    }
}
