# Ruby's client library (docker-api) against a daemon: the calls that a test suite makes. A line a step: what, and behind a colon what is wrong.
# DOCKER_URL names the daemon.
require 'docker'
require 'stringio'

TOOLS = 'engine/tools'

def step(what, wanted)
  found = yield
  puts found == wanted ? what : "#{what}: #{found.inspect[0, 200]}, and not #{wanted.inspect}"
rescue StandardError => e
  puts "#{what}: #{e.class} #{e.message[0, 200].inspect}"
end

def raised
  yield
  nil
rescue StandardError => e
  e.class
end

def container(name, *command, **more)
  Docker::Container.create({ 'Image' => TOOLS, 'Cmd' => command, 'name' => name }.merge(more))
end

step('version', '1.43') { Docker.version['ApiVersion'] }
step('ping', 'OK') { Docker.ping }
step('info', '1.0.0') { Docker.info['ServerVersion'] }
step('images', [['engine/tools:latest']]) { Docker::Image.all.map { |it| it.info['RepoTags'] } }
step('an image', true) { Docker::Image.exist?(TOOLS) }
step('another', false) { Docker::Image.exist?('redis') }
step('an image fetched', 'sha256:dc24') { Docker::Image.create('fromImage' => TOOLS, 'tag' => 'latest').id[0, 11] }
step('another', Docker::Error::NotFoundError) { raised { Docker::Image.create('fromImage' => 'redis', 'tag' => '7') } }

web = nil
step('create', 64) { (web = container('web', 'echo', 'hi')).id.length }
step('a name that stands', Docker::Error::ConflictError) { raised { container('web', 'echo') } }
step('start and wait', 0) { web.start.wait(10)['StatusCode'] }
step('logs', "hi\n") { web.logs(stdout: true)[8..] }
step('streaming logs', "hi\n") { web.streaming_logs(stdout: true) { |_, _| } }
step('inspect', 'exited') { web.json['State']['Status'] }
step('removal', Docker::Error::NotFoundError) do
  web.delete
  raised { Docker::Container.get('web') }
end

deaf = nil
step('a container that lasts', true) { (deaf = container('deaf', 'deaf')).start.json['State']['Running'] }
step('exec', [["inside\n"], [], 0]) { deaf.exec(%w[echo inside]) }
step('exec that ends with 4', [[], [], 4]) { deaf.exec(%w[exit 4]) }
step('exec that reads', [["one\ntwo\n"], [], 0]) { deaf.exec(['cat'], stdin: StringIO.new("one\ntwo\n")) }
step('100 times exec, and how often its output is lost', 0) { 100.times.count { deaf.exec(%w[echo x])[0] != ["x\n"] } }
step('pause', true) { deaf.pause.json['State']['Paused'] }
step('its end', false) { deaf.unpause.json['State']['Paused'] }
step('list', [['/deaf']]) { Docker::Container.all(filters: { status: ['running'] }.to_json).map { |it| it.info['Names'] } }
step('top', Excon::Error::NotImplemented) { raised { deaf.top } }
step('rename', '/quiet') { deaf.rename('quiet') && deaf.json['Name'] }
step('kill', 137) { deaf.kill.wait(10)['StatusCode'] }
step('restart and stop', 'exited') { deaf.restart('t' => 0).stop('t' => 0).json['State']['Status'] }
step('removal with force', nil) { raised { deaf.remove(force: true) } }
step('attach', "foo\n") do
  container('reader', 'cat', 'OpenStdin' => true, 'StdinOnce' => true).tap(&:start).attach(stdin: StringIO.new("foo\n"))[0].join
end

step('volume', 'tape') { Docker::Volume.create('tape').id }
step('volumes', ['tape']) { Docker::Volume.all.map(&:id) }
step('its removal', []) { Docker::Volume.get('tape').remove && Docker::Volume.all }
step('networks', %w[bridge host none]) { Docker::Network.all.map { |it| it.info['Name'] } }
step('a network', 'bridge') { Docker::Network.get('bridge').info['Name'] }
step('another', Docker::Error::NotFoundError) { raised { Docker::Network.get('app') } }
step('a prune of containers, which is left out', Excon::Error::NotImplemented) { raised { Docker::Container.prune } }
