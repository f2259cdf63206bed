// Times a client of omniORB: so many threads, each of which calls `current` so often over one connection. Usage: linked
// REFERENCE THREADS CALLS.
#include <chrono>
#include <cstdlib>
#include <iostream>
#include <thread>
#include <vector>
#include "ping.hh"

int main(int argc, char** argv) {
    const char* options[][2] = {{"maxGIOPConnectionPerServer", "1"}, {"oneCallPerConnection", "0"}, {0, 0}};
    CORBA::ORB_var orb = CORBA::ORB_init(argc, argv, "omniORB4", options);
    if (argc != 4) {
        std::cerr << "usage: linked REFERENCE THREADS CALLS" << std::endl;
        return 2;
    }
    CORBA::Object_var object = orb->string_to_object(argv[1]);
    Orb::Ping_var ping = Orb::Ping::_unchecked_narrow(object);
    int threads = std::atoi(argv[2]);
    int calls = std::atoi(argv[3]);
    ping->current();
    auto start = std::chrono::steady_clock::now();
    std::vector<std::thread> all;
    for (int i = 0; i < threads; ++i) {
        all.emplace_back([&] {
            for (int k = 0; k < calls; ++k) {
                ping->current();
            }
        });
    }
    for (auto& one : all) {
        one.join();
    }
    std::chrono::duration<double, std::micro> time = std::chrono::steady_clock::now() - start;
    std::cout << threads * calls << " calls answered in " << time.count() << " microseconds" << std::endl;
    return 0;
}
