// A client of `Orb::Ping` for omniORB. Usage: client REFERENCE CALL.., where REFERENCE is a text (IOR:.. or
// corbaloc:..), and a call is one of: narrow, current, echo=TEXT, sized=N (an echo of N letters), note, is_a=ID, gone
// (_non_existent), other=NAME (an operation of that name, by DII). Two are no calls: after at=N requests carry the
// priority N in a service context of id 10, RTCorbaPriority, and after band=LOW:HIGH these priorities in one of id 11,
// RTCorbaPriorityRange. Each call has a line with what came of it. The status is 0 where each call got a result, 1 where
// one got an exception, 2 before any call.
#include <iostream>
#include <string>
#include <vector>
#include <omniORB4/omniInterceptors.h>
#include "ping.hh"

namespace {

// The priority, and the ends of the band, that requests carry; none where they are negative.
CORBA::Short priority = -1;
CORBA::Short low = -1;
CORBA::Short high = -1;

// Adds a context of this id to a request: an encapsulation of shorts, in big order.
void add_context(IOP::ServiceContextList& contexts, CORBA::ULong id, const std::vector<CORBA::Short>& shorts) {
    const CORBA::ULong count = contexts.length();
    contexts.length(count + 1);
    contexts[count].context_id = id;
    contexts[count].context_data.length(2 + 2 * shorts.size());
    contexts[count].context_data[0] = 0;
    contexts[count].context_data[1] = 0;
    for (CORBA::ULong i = 0; i < shorts.size(); ++i) {
        contexts[count].context_data[2 + 2 * i] = static_cast<CORBA::Octet>(shorts[i] >> 8);
        contexts[count].context_data[3 + 2 * i] = static_cast<CORBA::Octet>(shorts[i] & 255);
    }
}

// Adds the contexts of the priority and of the band to a request.
CORBA::Boolean add_contexts(omni::omniInterceptors::clientSendRequest_T::info_T& info) {
    if (priority >= 0) {
        add_context(info.service_contexts, 10, {priority});
    }
    if (low >= 0) {
        add_context(info.service_contexts, 11, {low, high});
    }
    return true;
}

// One call and its line; false where an exception came.
bool call(CORBA::Object_ptr object, Orb::Ping_ptr ping, const std::string& name, const std::string& word) {
    std::cout << name << (word.empty() ? "" : " ") << word.substr(0, 40) << ": ";
    try {
        if (name == "narrow") {
            Orb::Ping_var checked = Orb::Ping::_narrow(object);
            std::cout << (CORBA::is_nil(checked) ? "another interface" : "an Orb::Ping");
        } else if (name == "at") {
            priority = static_cast<CORBA::Short>(std::stoi(word));
            std::cout << "the priority of what follows";
        } else if (name == "band") {
            low = static_cast<CORBA::Short>(std::stoi(word));
            high = static_cast<CORBA::Short>(std::stoi(word.substr(word.find(':') + 1)));
            std::cout << "the band of what follows";
        } else if (name == "current") {
            std::cout << ping->current();
        } else if (name == "echo") {
            CORBA::String_var text = ping->echo(word.c_str());
            std::cout << text.in();
        } else if (name == "sized") {
            const std::string sent(std::stoul(word), 'a');
            CORBA::String_var text = ping->echo(sent.c_str());
            std::cout << (sent == text.in() ? "the same" : "another text");
        } else if (name == "note") {
            ping->note();
            std::cout << "sent";
        } else if (name == "is_a") {
            std::cout << (object->_is_a(word.c_str()) ? "TRUE" : "FALSE");
        } else if (name == "gone") {
            std::cout << (object->_non_existent() ? "TRUE" : "FALSE");
        } else if (name == "other") {
            CORBA::Request_var request = object->_request(word.c_str());
            request->invoke();
            if (CORBA::Exception* raised = request->env()->exception()) {
                raised->_raise();
            }
            std::cout << "returned";
        } else {
            std::cout << "no such call" << std::endl;
            return false;
        }
        std::cout << std::endl;
        return true;
    } catch (const CORBA::SystemException& raised) {
        std::cout << raised._name() << " minor " << raised.minor() << " completed ";
        std::cout << (raised.completed() == CORBA::COMPLETED_YES ? "YES" : raised.completed() == CORBA::COMPLETED_NO ? "NO" : "MAYBE");
        const char* known = raised.NP_minorString();
        std::cout << (known ? " " : "") << (known ? known : "") << std::endl;
        return false;
    } catch (const CORBA::UserException& raised) {
        std::cout << "user exception " << raised._rep_id() << std::endl;
        return false;
    }
}

}

int main(int argc, char** argv) {
    try {
        CORBA::ORB_var orb = CORBA::ORB_init(argc, argv);
        if (argc < 3) {
            std::cerr << "usage: client REFERENCE CALL.." << std::endl;
            return 2;
        }
        omniORB::getInterceptors()->clientSendRequest.add(add_contexts);
        CORBA::Object_var object = orb->string_to_object(argv[1]);
        // Unchecked, so that the narrowing sends nothing: what is sent is by -ORBverifyObjectExistsAndType and by the calls.
        Orb::Ping_var ping = Orb::Ping::_unchecked_narrow(object);
        bool all = true;
        for (int i = 2; i < argc; ++i) {
            const std::string text = argv[i];
            const std::string::size_type cut = text.find('=');
            const bool bare = cut == std::string::npos;
            all = call(object, ping, text.substr(0, cut), bare ? "" : text.substr(cut + 1)) && all;
        }
        orb->destroy();
        return all ? 0 : 1;
    } catch (const CORBA::SystemException& raised) {
        std::cerr << "client: " << raised._name() << " minor " << raised.minor() << std::endl;
        return 2;
    }
}
