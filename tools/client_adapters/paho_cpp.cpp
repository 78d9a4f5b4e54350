// An adapter of the Paho C++ client, which uses the Paho C client (see tools/clients).
#include <atomic>
#include <chrono>
#include <iostream>
#include <memory>
#include <sstream>
#include <string>
#include <thread>
#include <vector>
#include <mqtt/async_client.h>

using namespace std::chrono_literals;

// Returns the addresses of a list as this library writes them.
static std::shared_ptr<mqtt::string_collection> uris(const std::string& words) {
    auto all = std::make_shared<mqtt::string_collection>();
    std::istringstream list(words);
    for (std::string it; std::getline(list, it, ',');) all->push_back("tcp://" + it);
    return all;
}

// Connects to one address after the other until a CONNACK 0 comes.
static void connect(mqtt::async_client& client, const std::string& words, bool keep,
                    int keep_alive) {
    mqtt::connect_options options;
    options.set_clean_session(!keep);
    options.set_mqtt_version(MQTTVERSION_3_1_1);
    options.set_keep_alive_interval(keep_alive);
    options.set_connect_timeout(2);
    options.set_servers(uris(words));
    for (;;) {
        try {
            auto token = client.connect(options);
            if (token->wait_for(5s)) {
                std::cout << "up " << token->get_connect_response().is_session_present()
                          << std::endl;
                return;
            }
        } catch (const mqtt::exception&) {
        }
        std::this_thread::sleep_for(200ms);
    }
}

static int subscribe(mqtt::async_client& client, const std::vector<std::string>& words) {
    std::atomic<bool> ended{false}, lost{false};
    client.set_message_callback([](mqtt::const_message_ptr it) {
        std::cout << "got " << it->get_qos() << " " << it->is_retained() << " "
                  << it->get_topic() << " " << it->to_string() << std::endl;
    });
    client.set_connection_lost_handler([&](const std::string&) { lost = true; });
    std::thread input([&] {
        while (std::cin.get() != EOF) {
        }
        ended = true;
    });
    while (!ended) {
        lost = false;
        connect(client, words[1], words[3] == "1", std::stoi(words[6]));
        try {
            client.subscribe(words[4], std::stoi(words[5]))->wait_for(5s);
            std::cout << "subscribed" << std::endl;
        } catch (const mqtt::exception&) {
        }
        while (!ended && !lost) std::this_thread::sleep_for(20ms);
        if (lost) std::cout << "lost" << std::endl;
    }
    input.join();
    client.disconnect()->wait_for(5s);
    return 0;
}

static int publish(mqtt::async_client& client, const std::vector<std::string>& words) {
    connect(client, words[1], words[3] == "1", 60);
    bool done = client.publish(words[4], words[7], std::stoi(words[5]), words[6] == "1")
                    ->wait_for(10s);
    client.disconnect()->wait_for(5s);
    return done ? 0 : 1;
}

int main(int count, char** given) {
    std::vector<std::string> words(given + 1, given + count);
    mqtt::async_client client("tcp://" + words[1].substr(0, words[1].find(',')), words[2]);
    return words[0] == "sub" ? subscribe(client, words) : publish(client, words);
}
