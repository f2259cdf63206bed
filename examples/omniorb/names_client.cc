// A client of `Orb::Names` for omniORB. Usage: names_client REFERENCE CALL.., where a call is one of: narrow, bind=KEY:TARGET,
// rebind=KEY:TARGET, resolve=KEY, unbind=KEY, next=KEY, size, long=N (a bind of a key of N letters), is_a=ID, gone
// (_non_existent), call=KEY (an operation of the object whose reference is kept under the key: _non_existent). Each call has a
// line with what came of it. The status is 0 where each call got a result, 1 where one got an exception, 2 before any call.
#include <iostream>
#include <string>
#include "names.hh"

namespace {

// One call and its line; false where an exception came.
bool call(CORBA::ORB_ptr orb, CORBA::Object_ptr object, Orb::Names_ptr names, const std::string& name, const std::string& word) {
    const std::string key = word.substr(0, word.find(':'));
    const std::string target = word.find(':') == std::string::npos ? "" : word.substr(word.find(':') + 1);
    std::cout << name << (word.empty() ? "" : " ") << word.substr(0, 40) << ": ";
    try {
        if (name == "narrow") {
            Orb::Names_var checked = Orb::Names::_narrow(object);
            std::cout << (CORBA::is_nil(checked) ? "another interface" : "an Orb::Names");
        } else if (name == "bind") {
            names->bind(key.c_str(), target.c_str());
            std::cout << "done";
        } else if (name == "rebind") {
            names->rebind(key.c_str(), target.c_str());
            std::cout << "done";
        } else if (name == "resolve") {
            CORBA::String_var found = names->resolve(word.c_str());
            std::cout << found;
        } else if (name == "unbind") {
            names->unbind(word.c_str());
            std::cout << "done";
        } else if (name == "next") {
            CORBA::String_var found = names->next(word.c_str());
            std::cout << found;
        } else if (name == "size") {
            std::cout << names->size();
        } else if (name == "long") {
            names->bind(std::string(std::stoul(word), 'k').c_str(), "x");
            std::cout << "done";
        } else if (name == "is_a") {
            std::cout << (object->_is_a(word.c_str()) ? "yes" : "no");
        } else if (name == "gone") {
            std::cout << (object->_non_existent() ? "yes" : "no");
        } else if (name == "call") {
            CORBA::String_var text = names->resolve(word.c_str());
            CORBA::Object_var found = orb->string_to_object(text);
            std::cout << (found->_non_existent() ? "gone" : "there");
        } else {
            std::cout << "no such call";
        }
    } catch (const Orb::NotFound&) {
        std::cout << "NotFound" << std::endl;
        return false;
    } catch (const Orb::AlreadyBound&) {
        std::cout << "AlreadyBound" << std::endl;
        return false;
    } catch (const Orb::NoRoom&) {
        std::cout << "NoRoom" << std::endl;
        return false;
    } catch (const CORBA::SystemException& thrown) {
        std::cout << thrown._name() << " minor " << (thrown.minor() & 0xfff) << " completed " << thrown.completed() << std::endl;
        return false;
    }
    std::cout << std::endl;
    return true;
}

}

int main(int count, char** words) {
    try {
        CORBA::ORB_var orb = CORBA::ORB_init(count, words);
        if (count < 2) {
            return 2;
        }
        CORBA::Object_var object = orb->string_to_object(words[1]);
        Orb::Names_var names = Orb::Names::_unchecked_narrow(object);
        bool went_well = true;
        for (int at = 2; at < count; ++at) {
            const std::string word = words[at];
            const auto equals = word.find('=');
            const bool came = call(orb, object, names, word.substr(0, equals), equals == std::string::npos ? "" : word.substr(equals + 1));
            went_well = came && went_well;
        }
        return went_well ? 0 : 1;
    } catch (const CORBA::Exception& thrown) {
        std::cerr << thrown._name() << std::endl;
        return 2;
    }
}
