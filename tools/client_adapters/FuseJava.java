// An adapter of libmqtt-client-java (see tools/clients). It has no list of addresses, so each is
// tried in turn.
import java.util.concurrent.TimeUnit;
import org.fusesource.mqtt.client.BlockingConnection;
import org.fusesource.mqtt.client.MQTT;
import org.fusesource.mqtt.client.Message;
import org.fusesource.mqtt.client.QoS;
import org.fusesource.mqtt.client.Topic;

public class FuseJava {
    static volatile boolean ended;

    // Connects to one address after the other until a CONNACK 0 comes.
    static BlockingConnection connect(String words, String name, boolean keep, int keepAlive)
            throws Exception {
        while (true) {
            for (String it : words.split(",")) {
                MQTT options = new MQTT();
                options.setHost("tcp://" + it);
                options.setClientId(name);
                options.setCleanSession(!keep);
                options.setVersion("3.1.1");
                options.setKeepAlive((short) keepAlive);
                options.setConnectAttemptsMax(1);
                options.setReconnectAttemptsMax(0);
                BlockingConnection connection = options.blockingConnection();
                try {
                    connection.connect();
                    // (this library does not show whether a session was there)
                    System.out.println("up ?");
                    return connection;
                } catch (Exception refused) {
                    connection.kill();
                    Thread.sleep(200);
                }
            }
        }
    }

    static void subscribe(String[] words) throws Exception {
        Thread input = new Thread(() -> {
            try {
                while (System.in.read() >= 0) {
                }
            } catch (java.io.IOException closed) {
            }
            ended = true;
        });
        input.setDaemon(true);
        input.start();
        while (!ended) {
            BlockingConnection connection = connect(words[1], words[2],
                    words[3].equals("1"), Integer.parseInt(words[6]));
            try {
                connection.subscribe(new Topic[] {
                    new Topic(words[4], QoS.values()[Integer.parseInt(words[5])])});
                System.out.println("subscribed");
                while (!ended && connection.isConnected()) {
                    Message it = connection.receive(100, TimeUnit.MILLISECONDS);
                    if (it != null) {
                        // (nor the QoS and the RETAIN of a message)
                        System.out.println("got ? ? " + it.getTopic() + " "
                                + new String(it.getPayload()));
                        it.ack();
                    }
                }
                if (ended) connection.disconnect();
            } catch (Exception lost) {
                System.out.println("lost");
            }
            connection.kill();
        }
    }

    static void publish(String[] words) throws Exception {
        BlockingConnection connection = connect(words[1], words[2], words[3].equals("1"), 60);
        connection.publish(words[4], words[7].getBytes(),
                QoS.values()[Integer.parseInt(words[5])], words[6].equals("1"));
        connection.disconnect();
    }

    public static void main(String[] words) throws Exception {
        if (words[0].equals("sub")) subscribe(words);
        else publish(words);
        System.exit(0);
    }
}
