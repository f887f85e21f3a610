"""What --help WORD says of the words that begin a line, of settings, and of other things a reader may ask for."""

TOPICS = {
    "ap": "ap own=ADDRESS: the settings of an access point, and an empty table\n\n"
          "  ap own=02:00:00:00:00:01 rsna=0 timeouts=100,100 edition=2 protection=1 query-retry=201 query-maximum=1000",
    "station": "station own=ADDRESS: the settings of a station, and an empty table\n\n"
               "  station own=02:00:00:00:01:01 rsna=0 timeouts=100,100",
    "ad-hoc": "ad-hoc own=ADDRESS network=ADDRESS: the settings of a peer without an access point, and an empty table\n\n"
              "  ad-hoc own=02:00:00:00:01:01 network=06:00:00:00:00:ad",
    "settings": "settings role=N own=ADDRESS: any role by its number, 1 AP, 2 station, 3 ad hoc; others are refused 2\n\n"
                "  settings role=3 own=02:00:00:00:01:01 network=06:00:00:00:00:ad",
    "role": "role=N, of settings: 1 is an AP, 2 a station, 3 ad hoc",
    "own": "own=ADDRESS, of the settings: our own address; as an address it is 'own'",
    "rsna": "rsna=0|1, of the settings: with 1 a peer that joins is in State 3 until its keys are set, prim set-protection",
    "timeouts": "timeouts=AUTHENTICATION,ASSOCIATION, of the settings: how many TU a station waits for an answer, 100,100",
    "edition": "edition=1|2, of the settings: which rule holds where an AP rejects an association\n\n"
               "  ap own=02:00:00:00:00:01 edition=2",
    "protection": "protection=0|1, of the settings: management frames are protected; it counts with edition=2\n\n"
                  "  ap own=02:00:00:00:00:01 edition=2 protection=1",
    "query-retry": "query-retry=TU, of the settings: when an SA Query's request is due again, 201",
    "query-maximum": "query-maximum=TU, of the settings: how long an SA Query waits for its answer, 1000",
    "network": "network=ADDRESS, of the settings: the ad hoc network's own address, Address 3 of its frames",
    "name": "name NAME = ADDRESS: a name for an address, a letter first, then letters, digits, '-' and '_'\n\n"
            "  name dock = 02:00:00:00:00:0a\n  name scanner-01..30 = 02:00:00:00:01:01",
    "frame": "frame WORD FIELD=..: a frame comes in; frame raw and octets, one by its octets\n\n"
             "  frame auth-request from=scanner\n  frame raw b0 00 00*20 00 00 01 00 00 00",
    "raw": "frame raw OCTETS: a frame by its octets, without the FCS\n\n  frame raw d4 00 00 00 02:00:00:00:00:01",
    "prim": "prim WORD|NUMBER PEER CODE=..: a primitive of our own side\n\n  prim associate dock\n  prim 3 dock reason=3",
    "links": "links DEVICE ADDRESS ..: primitive 12, an AP is told the links of a device in State 1; none takes them away\n\n"
             "  links tablet radio-1..3\n  links tablet none",
    "clock": "clock TIME: time passes, in TU of 1,024 us, or with a unit: us, ms, s, min, h. Whole TU are played and what\n"
             "is left over is told; over 65,535 TU are several steps.\n\n  clock 100\n  clock 2s\n  clock 1.5min",
    "expect": "expect ..: what the event above must have done; the status is 1 where one is not met\n\n"
              "  expect refused 8\n  expect sends deauth reason=7\n  expect state scanner 4\n  expect hold dock 0",
    "because": "because: the first rule that decided an event, as 'bench why' gives it, with a value: the length of a frame for\n"
               "refusal-3, the state of the peer for refusal-7 and class-filter, the hold left for refusal-8, else 0. Reasons:\n"
               "refusal-1 to refusal-9, no-class, class-filter, group-rule, nothing-to-do, none\n\n"
               "  expect because class-filter 2\n  expect because refusal-8",
    "own-side": "our own side: the host that the table belongs to; it asks by primitives and is told by notices",
    "broadcast": "broadcast: the address ff:ff:ff:ff:ff:ff",
    "tu": "TU: the time unit of IEEE 802.11, 1,024 microseconds; 2 s are 1,953.125 TU",
    "hold": "hold: how long a station must not ask an AP to join, in TU, after a rejection or a disassociation\n\n"
            "  expect hold dock 1954",
    "class": "class: 1 passes in every state, 2 from State 2 on, 3 from State 3 on; 'scenario --help frames' has each frame's",
}
