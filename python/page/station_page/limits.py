"""Every bound of the page, by its name."""

# Connections at a time, of all kinds; how many of them may be of those who aren't signed in, how
# many event streams, and how many fetches, of all cameras and of one.
CONNECTIONS = 300
STRANGERS = 100
STREAMS = 64
FETCHES = 48
CAMERA_FETCHES = 12
# The bytes that are taken from a connection at a time, and how many requests may wait there behind
# the one that is worked on.
RECEIVE_BYTES = 16 * 1024
REQUESTS_WAITING = 16
# Seconds in which a request has to be whole, and in which a client that reads nothing has to read
# something.
REQUEST_SECONDS = 15
READ_SECONDS = 20
# The bytes of a request's body, and of a line of the station.
BODY_BYTES = 16 * 1024
LINE_BYTES = 32 * 1024
# After so many lines of the station in a row that aren't JSON it is told that its answers can't be
# read.
UNREAD_LINES = 3
# The events, and the clips of them, of which is remembered what the station said.
EVENTS_HEARD = 4096
# The letters of who gave an order.
WHO_LETTERS = 100
# The times at which frames were lost that are remembered of each camera.
LOSSES = 1000
# How often cameras are looked at while a page is open, and while none is, and how long a request
# waits for a look; how often the station is asked how it stands.
LOOK_SECONDS = 0.5
IDLE_SECONDS = 5.0
FRESH_SECONDS = 2.0
# For how long a look reads stores that weren't read before, of a camera that has several; and how
# long a file has to be as it is before its time tells that nothing was written since.
RING_SECONDS = 0.25
SETTLED_SECONDS = 3
ASK_SECONDS = 5.0
IDLE_ASK_SECONDS = 60.0
# How long a disk may need for a look before nobody waits for it, and for a picture.
DISK_SECONDS = 1.0
PICTURE_SECONDS = 5.0
# Which part of a processor a look has that isn't held up by its disk.
IDLE_PART = 0.01
# The threads that read one camera's frames, and how many reads may wait for them; the threads that
# draw pictures of all cameras.
CAMERA_THREADS = 2
CAMERA_READS = 64
DRAW_THREADS = 2
# How long a keep or a release may wait for its answer: what waits for a slow disk is stored first.
CHANGE_SECONDS = 15.0
# How long another order may wait for its answer, and how often the answers are looked at while one
# is awaited, and else.
ANSWER_SECONDS = 5.0
WATCH_SECONDS = 0.02
REST_SECONDS = 0.1
# How many orders may wait for an answer at a time.
ORDERS = 32
# The seconds that a keep may ask for, and the bytes of a note.
KEEP_SECONDS = 86_400
NOTE_BYTES = 500
NOTES = 4096
# Notes of clips that their stores don't show yet.
NOTES_WAITING = 256
# How often it is looked at whether an answer of which a part came is enough.
ENOUGH_SECONDS = 0.25
# How long a source may be missing, or a store absent, before it is warned of; how long frames, a
# disk or a station may be away before the page warns of it by its own eyes.
PASSING_SECONDS = 3.0
SILENT_SECONDS = 4.0
HANGING_SECONDS = 5.0
# After how many seconds without a new frame a camera isn't shown as one that records.
STILL_SECONDS = 2.0
# How long a clip that was kept is looked for in its store, for its times and its note.
FIND_SECONDS = 3.0
# Alerts that are remembered, and those that wait for the command or the webhook; the seconds that
# these may take.
ALERTS = 100
DELIVERIES = 100
DELIVERY_SECONDS = 30.0
# How often it is looked at whether a warning is to be told again; the letters of a mail's subject.
REMIND_SECONDS = 5.0
SUBJECT_LETTERS = 200
# The lines of who changed what that are remembered, and those that each open page is sent.
JOURNAL = 200
JOURNAL_SENT = 30
# The width to which pictures of tiles, and those of clips in the list, are made smaller.
TILE_WIDTH = 640
THUMB_WIDTH = 160
# Pictures that are remembered, and the bytes that these may take together.
PICTURES = 64
PICTURE_BYTES = 16 * 1024 * 1024
# The bytes and the pixels of a picture of another station.
PICTURE_MOST = 32 * 1024 * 1024
PIXELS = 2**24
# Films that wait to be made, that are remembered, and the bytes that these may take together.
FILMS_WAITING = 8
FILMS = 16
FILM_BYTES = 2 * 1024**3
# Seconds after which a folder of films without a lock is one that a page left.
LEFT_SECONDS = 60.0
# Seconds after which a film that nobody reads any more isn't made on.
FILM_IDLE_SECONDS = 5.0
# The bytes of a piece that is read from a store and sent.
PIECE = 128 * 1024
# How long a person stays signed in, how many may be; how many wrong tokens a minute are answered,
# and of how many addresses they are counted.
SESSION_SECONDS = 7 * 24 * 3600
SESSIONS = 1000
WRONG_TOKENS = 20
GUESSERS = 1000
# The bytes of a file of users, and how often it is looked at whether it is another one.
USERS_BYTES = 256 * 1024
USERS_SECONDS = 1.0
# The largest number of a frame.
NUMBERS_END = 2**62
# Pictures of one camera a second: live, while an event is played, and of all cameras of a page
# together; of each at least, and how many there have to be before they become smaller.
LIVE_RATE = 8
PLAY_RATE = 25
PICTURES_A_SECOND = 40
SLOWEST = 2
LEAST_PICTURES = 5
# How long a look at the newest frame serves all pages; how long a round waits for a disk.
PEEK_SECONDS = 0.04
ROUND_SECONDS = 1.0
# The bytes that may be on their way to a page: at first, at least and at most; after how many
# seconds they come late. How often it is told how all stands where its line is slow: seldom enough
# that this takes such a part of the line, and once in so many seconds.
WINDOW_FIRST = 64 * 1024
WINDOW_LEAST = 6 * 1024
WINDOW_MOST = 4 * 1024 * 1024
LATE_SECONDS = 0.8
STATE_PART = 0.25
STATE_SECONDS = 2.0
# The bytes of a picture that wasn't sent yet.
PICTURE_GUESS = 8 * 1024
# Reads for pictures of one camera that may wait.
EYE_READS = 64
# After how many seconds pictures become smaller where the network is slow, and larger where it
# isn't: at first, and at most.
PACE_SECONDS = 2.0
CALM_SECONDS = 6.0
CALM_MOST = 60.0
# The width of a picture, at least and at most, and of that by which a stretch is chosen; by how
# little it may differ and is left: so many values, or one of so many parts of its own width.
LEAST_WIDTH = 16
MOST_WIDTH = 16384
AUTO_WIDTH = 256
AUTO_CALM = 3
AUTO_NEAR = 64
# A time without frames that is a hole: microseconds beyond the period.
HOLE = 200_000
# The bytes of pictures that are remembered of each camera, and of all together; and the frames that
# are in memory at a time, to be drawn.
EYE_BYTES = 2 * 1024 * 1024
EYES_BYTES = 12 * 1024 * 1024
EYE_FRAMES = 4
# After how many seconds another station that says nothing doesn't answer, and how often it is tried
# again; the bytes of a message of it and of its head, and the seconds in which it has to come
# whole; for how long it is unusable after an answer that can't be used; how many steps of frames
# are taken at once over several stations.
AWAY_SECONDS = 5.0
AGAIN_SECONDS = 1.0
MESSAGE_BYTES = 8 * 1024 * 1024
HEAD_BYTES = 64 * 1024
MESSAGE_SECONDS = 30.0
UNUSABLE_SECONDS = 60.0
STEPS = 50
# By how many microseconds its clock may be off, and by how many answers that is reckoned.
CLOCK_MICROS = 20_000
CLOCK_SAMPLES = 8
# By how many microseconds two answers of one clock may contradict each other: clocks drift.
CLOCK_SLACK = 5_000
# How often what all stations say is made one at most.
MERGE_SECONDS = 0.2
# How many of the nearest events of other stations are looked at for one that is of the same span.
NEAR_TRIES = 64
# The bytes of the archive's file; for how long it may be as it is, and how long a clip may wait: one
# that can't be archived, and any.
ARCHIVE_BYTES = 4 * 1024 * 1024
ARCHIVE_SILENT_SECONDS = 60.0
ARCHIVE_FAULT_SECONDS = 60.0
ARCHIVE_SECONDS = 600.0
# Events that are fetched at a time.
EVENT_FETCHES = 8
# The clips of an event that a request may name, and those that a store has room for.
EVENT_CLIPS = 256
EVENT_CLIPS_A_STORE = 64
# The zips whose progress pages are told, and for how many seconds after their end.
PROGRESS = 32
PROGRESS_SECONDS = 30.0

# How long a camera's program may take to read what was changed; how many words are changed at once,
# how large what it says may be, and how many changes are remembered.
TUNING_SECONDS = 8.0
TUNED_AT_ONCE = 8
SAID_BYTES = 1 << 18
CHANGES = 200
