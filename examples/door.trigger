# What keeps by itself: python/links/loop_trigger examples/door.trigger
# docs/several.md and loop_trigger(1) say what each word means.
page = "http://127.0.0.1:8080"
token = "/etc/lapyrei/page.token"   # without this line where the page has none
#stations = "all"          # by MQTT to all stations, instead of to the page; needs [broker]

[[trigger]]
name = "shot"
kind = "udp"
listen = "127.0.0.1:9000"
match = "fire*"
before = 30                # seconds before and after it that are kept
after = 10
rest = 10                  # so long further ones are gathered, and kept as one

#[[trigger]]
#name = "door"
#kind = "gpio"
#line = 17
#edge = "falling"
#bias = "pull-up"
#stay = 0.02               # a shorter one is a bounce

#[[trigger]]
#name = "beam"
#kind = "picture"
#store = "/var/lib/loop_station/left.loop"
#region = [200, 100, 80, 80]
#above = 0.6               # or below, or motion = 0.05: parts of white
