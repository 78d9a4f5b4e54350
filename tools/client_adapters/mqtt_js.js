// An adapter of node-mqtt, MQTT.js (see tools/clients).
const mqtt = require('mqtt')
const [what, words, name, keep, topic, qos, ...rest] = process.argv.slice(2)
const servers = words.split(',').map((it) => ({
  host: it.split(':')[0], port: Number(it.split(':')[1]), protocol: 'mqtt' }))

// Connects to one address after the other until a CONNACK 0 comes.
const options = { servers, clientId: name, clean: keep !== '1', protocolVersion: 4,
  reconnectPeriod: 200, connectTimeout: 2000 }
const client = mqtt.connect({ ...options, keepalive: what === 'sub' ? Number(rest[0]) : 60 })
client.on('error', () => {})
client.on('close', () => console.log('lost'))

if (what === 'sub') {
  client.on('connect', (packet) => {
    console.log('up', packet.sessionPresent ? 1 : 0)
    client.subscribe(topic, { qos: Number(qos) }, () => console.log('subscribed'))
  })
  client.on('message', (where, payload, packet) =>
    console.log('got', packet.qos, packet.retain ? 1 : 0, where, payload.toString()))
  process.stdin.resume()
  process.stdin.on('end', () => client.end(false, {}, () => process.exit(0)))
} else {
  client.on('connect', () => {
    client.publish(topic, rest[1], { qos: Number(qos), retain: rest[0] === '1' }, () =>
      client.end(false, {}, () => process.exit(0)))
  })
}
