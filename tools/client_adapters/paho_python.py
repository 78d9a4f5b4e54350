"""An adapter of python3-paho-mqtt (see tools/clients)."""
import sys
import threading
import time

import paho.mqtt.client as mqtt


def client_of(name, keep):
    """Returns a client of MQTT 3.1.1 by its identifier."""
    return mqtt.Client(client_id=name, clean_session=not keep, protocol=mqtt.MQTTv311)


def addresses(words):
    """Returns the hosts and ports of a list."""
    return [(host, int(port)) for host, port in (it.split(":") for it in words.split(","))]


def connect(client, words, keep_alive):
    """Connects to the first address that answers with a CONNACK 0."""
    while True:
        for host, port in addresses(words):
            up = threading.Event()
            client.on_connect = lambda _c, _u, flags, code: (
                (say_up(flags, code), up.set()) if code == 0 else None)
            try:
                client.connect(host, port, keep_alive)
            except OSError:
                continue
            client.loop_start()
            if up.wait(2):
                return
            client.loop_stop()
        time.sleep(0.2)


def say_up(flags, _code):
    print("up", flags["session present"], flush=True)


def subscribe(words, name, keep, topic, qos, keep_alive):
    """Subscribes, and prints each message until the input ends."""
    client = client_of(name, keep)
    client.on_message = lambda _c, _u, it: print("got", it.qos, int(it.retain), it.topic,
        it.payload.decode(), flush=True)
    ended = threading.Event()
    threading.Thread(target=lambda: (sys.stdin.read(), ended.set()), daemon=True).start()
    while not ended.is_set():
        connect(client, words, keep_alive)
        client.on_subscribe = lambda *_: print("subscribed", flush=True)
        client.subscribe(topic, qos)
        while client.is_connected() and not ended.is_set():
            time.sleep(0.02)
        if not ended.is_set():
            print("lost", flush=True)
            client.loop_stop()
    client.disconnect()
    client.loop_stop()


def publish(words, name, keep, topic, qos, retain, payload):
    """Publishes once, and ends when the handshake has ended."""
    client = client_of(name, keep)
    connect(client, words, 60)
    client.publish(topic, payload, qos, retain).wait_for_publish(10)
    client.disconnect()
    client.loop_stop()


def main(what, words, name, keep, topic, qos, *rest):
    if what == "sub":
        return subscribe(words, name, keep == "1", topic, int(qos), int(rest[0]))
    return publish(words, name, keep == "1", topic, int(qos), rest[0] == "1", rest[1])


main(*sys.argv[1:])
