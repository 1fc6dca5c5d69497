"""The paper's sample messages and sentences, each as requests with the answers that the paper gives.

The list begins by giving every circuit to sender 1 and ends with the tables as they were at the start.
"""

REL_253 = "ab" * 253
REL_254 = "ab" * 254
RUN = "200141"

SAMPLES = [
    # Where the hub is meant, the sender owns the circuits and rows are 0.
    ("own 0 4095 1", "ok"),

    # 05 00 17 01 01 03: accepted, circuits 5 to 8; answer 05 00 29 01 02 03 00.
    ("act 1 050017010103 7", "answer 05002901020300"),
    ("set 4 9 1", "ok"),
    ("act 1 05 00 17 01 01 03 7", "bad line"),
    ("act 1 050017010103 6", "refused 13"),
    ("rows 4 9", "rows 010101010101"),
    ("act 1 050017010103 1024", "answer 05002901020300"),
    ("rows 4 9", "rows 010000000001"),
    ("read 050017010103", "circuit 5 type 17 fixed - first 03 second - optional -"),
    ("set 0 4095 0", "ok"),

    # 23 01 13: circuit 291; answer 23 01 15.
    ("read 230113", "circuit 291 type 13 fixed - first - second - optional -"),
    ("act 1 230113 3", "answer 230115"),
    ("rows 290 292", "rows 000200"),
    ("set 0 4095 0", "ok"),

    # 08 00 18 00 01 03 09 01 02: marks 8 and 17; answer 08 00 1A 00 01 03 09 01 02.
    ("act 1 080018000103090102 9", "answer 08001a000103090102"),
    ("rows 7 18", "rows 000200000000000000000200"),
    ("set 0 4095 0", "ok"),

    # 01 00 0C 02 00 02 80 90: answer 01 00 10 00.
    ("act 1 01000C0200028090 4", "answer 01001000"),
    ("rows 0 2", "rows 000000"),

    # 01 00 01 00 60 01 0A 00 02 00 04 03 10 21 43: number 1234.
    ("read 0100010060010A0002000403102143",
     "circuit 1 type 01 fixed 0060010a00 first 03102143 second - optional -"),
    ("number 03102143 4", "nature 3 plan 1 internal 0 signals 01020304"),
    ("act 1 0100010060010A0002000403102143 0", "answer -"),
    ("rows 0 2", "rows 000100"),
    ("set 0 4095 0", "ok"),

    # 01 00 09 01 00: accepted; compact 01 00 09 00.
    ("read 0100090100", "circuit 1 type 09 fixed - first - second - optional -"),
    ("compact 0100090100 4", "octets 01000900"),

    # 01 00 09 01 20 01 41 00: one optional, name 20, contents 41; the same without last octet: 7.
    ("read 0100090120014100", "circuit 1 type 09 fixed - first - second - optional 200141"),
    ("find 20 0100090120014100 -", "message 41"),
    ("find 21 0100090120014100 -", "refused 15"),
    ("read 01000901200141", "refused 7 at 7"),

    # 6, 5, 8, 5, each with its octet: the length octet, the pointer, the later start of the two, the pointer.
    ("read 01000C0200038090", "refused 6 at 5"),
    ("read 01000C0100", "refused 5 at 3"),
    ("read 01000C0201010000", "refused 8 at 5"),
    ("read 01000901", "refused 5 at 3"),
    ("act 1 01000C0200038090 1024", "refused 6 at 5"),
    ("act 1 01000C0100 1024", "refused 5 at 3"),
    ("act 1 01000C0201010000 1024", "refused 8 at 5"),

    # The octet, number by number: the type's; L; a name octet that is the last; a parameter that passes; L where a name was due.
    ("read 010003", "refused 3 at 2"),
    ("read 010003010203", "refused 3 at 2"),
    ("read 01000C02", "refused 4 at 4"),
    ("read 0100090120", "refused 7 at 4"),
    ("read 010009012001", "refused 7 at 4"),
    ("read 0100090120014121", "refused 7 at 7"),
    ("read 010009012001412102", "refused 7 at 7"),
    ("read 01002B02010100", "refused 8 at 5"),
    ("read 01002B03010100", "refused 8 at 6"),
    # Finding, writing again and the hub give the reader's octet; the writer's own 3, and every other number, have none.
    ("find 20 01000901200141 -", "refused 7 at 7"),
    ("find 20 01000901200141 00", "refused 7 at 7"),
    ("compact 01000901200141 0", "refused 7 at 7"),
    ("act 0 010003 0", "refused 3 at 2"),
    ("write 1 03 - - - - 1024", "refused 3"),
    ("shape 03", "refused 3"),
    ("compact 0100 1024", "refused 1"),

    # E0 0F 17 01 01 1F: circuits 4064 to 4095.
    ("set 4063 4095 2", "ok"),
    ("act 1 E00F1701011F 1024", "answer e00f2901051f00000000"),
    ("rows 4062 4095", "rows 0002" + "00" * 32),
    ("set 0 4095 0", "ok"),

    # FF 0F 17 01 01 01: 18.
    ("act 1 FF0F17010101 1024", "refused 18"),
    ("read FF0F17010101", "circuit 4095 type 17 fixed - first 01 second - optional -"),

    # REL with 253 octets and a non-empty optional run puts 255 in the last pointer; 254 gives 12;
    # 254 with no optional run is fine.
    ("write 1 0C - %s - %s 1024" % (REL_253, RUN), "octets 01000c02fffd" + REL_253 + RUN + "00"),
    ("write 1 0C - %s - %s 1024" % (REL_254, RUN), "refused 12"),
    ("write 1 0C - %s - - 1024" % REL_254, "octets 01000c0200fe" + REL_254),

    # Number contents 83 10 21 03 are 123, and 03 10 21 43 are 1234; both are written so.
    ("number 83102103 3", "nature 3 plan 1 internal 0 signals 010203"),
    ("number 03102143 3", "refused 13"),
    ("dial 3 1 0 010203 4", "octets 83102103"),
    ("dial 3 1 0 01020304 4", "octets 03102143"),

    # CGB with 32 marks is taken and 33 are 14, also where the group passes 4095; bits past the range are spare and do not count.
    ("act 1 000018000106" + "27" + "ffffffff00" + " 12", "answer 00001a000106" + "27" + "ffffffff00"),
    ("act 1 000018000106" + "27" + "ffffffff01" + " 12", "refused 14"),
    ("act 1 000019000106" + "27" + "ffffffff01" + " 12", "refused 14"),
    ("act 1 F00F18000106" + "27" + "ffffffff01" + " 12", "refused 14"),
    ("act 1 F00F18000106" + "27" + "ffffffff00" + " 12", "refused 18"),
    ("act 1 000019000106" + "20" + "fffffffffe" + " 12", "answer 00001b000106" + "20" + "ffffffff00"),
    ("set 0 4095 0", "ok"),

    # CQM: circuits 5 to 8, idle, busy, blocked for maintenance and for both; CQR with the range, then a state for each.
    ("set 6 6 1", "ok"),
    ("set 7 7 2", "ok"),
    ("set 8 8 6", "ok"),
    ("act 1 05002A010103 12", "answer 05002b0203010304" + "0c040e2e"),
    ("act 1 05002A010103 11", "refused 13"),
    ("act 1 06002A010100 9", "answer 06002b020301000104"),
    ("act 1 05002A010120 1024", "refused 14"),
    ("act 1 05002A01020300 1024", "refused 14"),
    ("act 1 05002A0100 1024", "refused 14"),
    ("act 1 FF0F2A010101 1024", "refused 18"),
    ("act 1 FF0F2A010100 1024", "answer ff0f2b02030100010c"),
    ("act 2 05002A010103 1024", "refused 19"),
    ("set 7 7 5", "ok"),
    ("act 1 05002A010103 1024", "refused 20"),
    ("rows 5 8", "rows 00010506"),

    # Our own blocks: 8 on top of any legal state; BLO or UBL to send, the circuit as given; 9, 20, 13 in this order.
    ("own 5 8 7", "ok"),
    ("set 5 8 0", "ok"),
    ("set 7 7 13", "ok"),
    ("block 5 3", "answer 050013"),
    ("block 6 2", "refused 13"),
    ("block 7 0", "refused 20"),
    ("block 4096 0", "refused 9"),
    ("block 4294967295 3", "refused 9"),
    ("rows 5 8", "rows 08000d00"),
    ("act 7 050001000000000002000100 0", "refused 21"),
    ("act 7 05002a010100 268", "answer 05002b02030100010d"),
    ("act 7 050013 3", "answer 050015"),
    ("act 7 050012 6", "refused 13"),
    ("act 7 050012 7", "answer 05001305001000"),
    ("set 7 7 9", "ok"),
    ("act 7 050017010103 7", "answer 05002901020305"),
    ("rows 5 8", "rows 08000800"),
    ("unblock 5 3", "answer 050014"),
    ("unblock 5 3", "answer 050014"),
    ("unblock 7 3", "answer 070014"),
    ("rows 5 8", "rows 00000000"),

    # Velocities: N <= b < N+1; within half of N, a half going up; from 65534.5 (vertical 254.5) the top; read back N itself.
    ("velocity 12.5 80.2", "bearing 12 speed 80"),
    ("velocity 12.5 80.5 3.4 up", "bearing 12 speed 81 vertical 3 up"),
    ("velocity 0 0.49999999999999", "bearing 0 speed 0"),
    ("velocity 0 0x3fdfffffffffffff", "bearing 0 speed 0"),             # 0.49999999999999994
    ("velocity 0 0.5", "bearing 0 speed 1"),
    ("velocity 0 0x0000000000000001", "bearing 0 speed 0"),             # the smallest subnormal
    ("velocity -0 -0", "bearing 0 speed 0"),
    ("velocity 0 -1", "refused 26"),
    ("velocity 0 0x7ff8000000000000", "refused 26"),                    # not a number
    ("velocity 0 0x7ff0000000000000", "refused 26"),                    # infinite
    ("velocity 0 0xfff0000000000000", "refused 26"),
    ("velocity 0 0x40efffcfffffffff", "bearing 0 speed 65534"),         # 65534.49999999999
    ("velocity 0 65534.5", "bearing 0 speed 65535"),
    ("velocity 0 0x7fe1ccf385ebc8a0", "bearing 0 speed 65535"),         # 1e308
    ("velocity 0 0 254.4 down", "bearing 0 speed 0 vertical 254 down"),
    ("velocity 0 0 254.5 down", "bearing 0 speed 0 vertical 255 down"),
    ("velocity 0x40767fffffffffff 0", "bearing 359 speed 0"),           # 359.99999999999994
    ("velocity 360 0", "refused 26"),
    ("velocity-back 359 65535", "bearing 359 speed 65535"),
    ("velocity-back 359 120 3 up", "bearing 359 speed 120 vertical 3 up"),
    ("velocity-back 360 0", "refused 26"),

    # BICC: four octets of code, the least significant first; BLO, UBL, BLA and UBA are ISUP's alone; 5 to 270 octets.
    ("bicc-shape 01", "fixed 5 variable 1 optional yes"),
    ("bicc-shape 12", "fixed 0 variable 0 optional no"),
    ("bicc-shape 13", "refused 3"),
    ("bicc-shape 16", "refused 3"),
    ("bicc-shape 17", "fixed 0 variable 1 optional no"),
    ("bicc-read 010203040c0200028090", "code 67305985 type 0c fixed - first 8090 second - optional -"),
    ("bicc-read ffffffff12", "code 4294967295 type 12 fixed - first - second - optional -"),
    ("bicc-read 78563412170101ff", "code 305419896 type 17 fixed - first ff second - optional -"),
    ("bicc-read 01020304", "refused 1"),
    ("bicc-read 0102030413", "refused 3 at 4"),
    ("bicc-read 0102030417", "refused 4 at 5"),
    ("bicc-read 010203040901200141", "refused 7 at 9"),
    ("bicc-read 010203040900" + "00" * 264, "code 67305985 type 09 fixed - first - second - optional -"),
    ("bicc-read 010203040900" + "00" * 265, "refused 2"),
    ("bicc-write 305419896 17 - ff - - 8", "octets 78563412170101ff"),
    ("bicc-write 305419896 17 - ff - - 7", "refused 13"),
    ("bicc-write 4294967295 12 - - - - 5", "octets ffffffff12"),
    ("bicc-write 1 15 - - - - 1024", "refused 3"),
    ("bicc-write 1 12 00 - - - 1024", "refused 10"),
    ("bicc-compact 7856341217020001ff 1024", "octets 78563412170101ff"),
    ("bicc-compact 010203041400 1024", "refused 3 at 4"),

    # SCCP: the type octet first, 1 to 268 octets, up to three variable contents; RSR and ERR have an optional part; LUDT and LUDTS are not built.
    ("sccp-shape 09", "fixed 1 variable 3 optional no"),
    ("sccp-shape 11", "fixed 2 variable 3 optional yes"),
    ("sccp-shape 0d", "fixed 7 variable 0 optional yes"),
    ("sccp-shape 0f", "fixed 4 variable 0 optional yes"),
    ("sccp-shape 10", "fixed 10 variable 0 optional no"),
    ("sccp-shape 13", "refused 3"),
    ("sccp-shape 14", "refused 3"),
    ("sccp-shape 00", "refused 3"),
    ("sccp-read 0900030405014201430201", "refused 6 at 9"),
    ("sccp-read 0900030405014201430201aabb", "type 09 fixed 00 first 42 second 43 third 01aa optional -"),
    ("sccp-read 0c010203", "type 0c fixed 010203 first - second - third - optional -"),
    ("sccp-read 11010f040506ff014201430020014100", "refused 5 at 6"),
    ("sccp-read 11010f04050606014201430020014100", "type 11 fixed 010f first 42 second 43 third - optional 200141"),
    ("sccp-read -", "refused 1"),
    ("sccp-read 13", "refused 3 at 0"),
    ("sccp-read 0900", "refused 4 at 2"),
    ("sccp-read 0900030201000000", "refused 8 at 5"),
    ("sccp-read 0f0102030400" + "00" * 262, "type 0f fixed 01020304 first - second - third - optional -"),
    ("sccp-read 0f0102030400" + "00" * 263, "refused 2"),
    ("sccp-write 09 00 42 43 0102 - 1024", "octets 0900030405014201430201" + "02"),
    ("sccp-write 09 00 42 43 0102 - 11", "refused 13"),
    ("sccp-write 13 00 - - - - 1024", "refused 3"),
    ("sccp-write 01 01020304 42 - 43 - 1024", "refused 10"),
    ("sccp-write 0f 01020304 - - - 200141 1024", "octets 0f010203040120014100"),
    ("sccp-write 09 00 %s %s - - 1024" % ("07" * 126, "08" * 126), "octets 09000381ff7e" + "07" * 126 + "7e" + "08" * 126 + "00"),
    ("sccp-write 09 00 %s %s - - 1024" % ("07" * 127, "08" * 126), "refused 12"),
    ("sccp-compact 090004050600014201430201aabb 1024", "octets 0900030405014201430201aa"),
    ("sccp-compact 13 1024", "refused 3 at 0"),

    # Stepping through the optional parameters, of each family: name, contents, in order; over a refused message the refusal.
    ("list 0100090120014121000000", "parameters 20 41 21 -"),
    ("list 01000900", "parameters -"),
    ("list 230113", "parameters -"),
    ("list 01000901200141", "refused 7 at 7"),
    ("list 2301", "refused 1"),
    ("bicc-list 010203040901200141210000", "parameters 20 41 21 -"),
    ("bicc-list 0102030413", "refused 3 at 4"),
    ("sccp-list 0f01020304012001412001422100" + "00", "parameters 20 41 20 42 21 -"),
    ("sccp-list 0c010203", "parameters -"),
    ("sccp-list 13", "refused 3 at 0"),
    ("sccp-list -", "refused 1"),

    # Totals of 64 circuits: a question takes whole blocks from them, and looks at 188 numbers at the most; 9 before 18.
    ("busy 0 4095", "count 0 looked 64"),
    ("busy 1 4094", "count 0 looked 188"),
    ("busy 5 5", "count 0 looked 1"),
    ("busy 63 64", "count 0 looked 2"),
    ("busy 0 4096", "refused 9"),
    ("busy 4098 4097", "refused 9"),
    ("busy 6 5", "refused 18"),
    ("set 60 69 1", "ok"),
    ("set 69 69 255", "ok"),                                            # its bit 1 is set
    ("busy 60 69", "count 10 looked 10"),
    ("busy 0 127", "count 10 looked 2"),
    ("busy 0 64", "count 5 looked 2"),
    ("totals", "totals 0406" + "00" * 62),
    # A wrong total is what a question takes, and a call makes right the totals of the blocks that it names: CQM too, a refused call none.
    ("total 0 200", "ok"),
    ("total 1 201", "ok"),
    ("total 2 202", "ok"),
    ("busy 0 127", "count 401 looked 2"),
    ("busy 0 126", "count 206 looked 64"),
    ("own 60 68 7", "ok"),
    ("act 8 3c002a010100 9", "refused 19"),
    ("totals", "totals c8c9ca" + "00" * 61),
    ("act 7 3c002a010100 9", "answer 3c002b020301000104"),
    ("totals", "totals 04c9ca" + "00" * 61),
    ("act 7 40000c020001 4", "refused 6 at 5"),
    ("act 7 40000c02000180 4", "answer 40001000"),
    ("totals", "totals 0405ca" + "00" * 61),
    ("total 1 0", "ok"),
    ("block 128 2", "refused 13"),
    ("block 128 3", "answer 800013"),
    ("totals", "totals 040000" + "00" * 61),
    ("rebuild", "ok"),
    ("totals", "totals 0405" + "00" * 62),
    ("total 63 255", "ok"),
    ("busy 0 4095", "count 264 looked 64"),
    ("rebuild", "ok"),
    ("busy 0 4095", "count 9 looked 64"),

    # A maintenance night: ticked circuits in a row are one CGB, a single one is BLO; for hardware it is a CGB of range 1 with an owned neighbour.
    ("own 0 4095 0", "ok"),
    ("set 0 4095 0", "ok"),
    ("plan 7 0 0", "octets -"),
    ("check 7 0 -", "yes"),
    ("check 0 1 -", "yes"),
    ("check 7 2 -", "no"),
    ("own 5 9 7", "ok"),
    ("helper 9 10 7", "ok"),
    ("tick 5 6 255", "ok"),
    ("tick 10 10 1", "ok"),
    ("plan 7 0 27", "octets 08050018000102010303" + "0a0013"),
    ("check 7 0 080500180001020103030a0013", "yes"),
    ("check 7 0 030a001308050018000102" + "0103", "yes"),                # in another order
    ("check 7 0 0305001303060013030a0013", "yes"),                      # BLO for each
    ("check 7 0 0905001800010305010003030a0013", "no"),                 # a tick left out, and octets that are no CGB
    ("check 7 0 080500180001020103", "no"),                             # 10 is left out
    ("check 7 0 080500180001020103030a0013030a0013", "no"),             # 10 twice
    ("check 7 0 080500180001020103030a0013" + "03070013", "no"),        # 7 is not ticked
    ("check 7 0 080500180001020103030a00", "no"),                       # cut off
    ("check 7 0 080500180001020103030a001300", "no"),                   # a length octet of 0
    ("check 7 0 080500180001020103030a0014", "no"),                     # UBL
    ("check 7 0 080500180101020103030a0013", "no"),                     # for hardware
    ("check 8 0 080500180001020103030a0013", "no"),
    ("check 7 0 080500180001020103030a0013080500180001020100", "yes"),  # one that marks nothing
    # 14, 20, 25, 13: 10 is only helped, so for hardware there is no plan.
    ("plan 7 2 27", "refused 14"),
    ("set 4095 4095 5", "ok"),
    ("plan 7 2 0", "refused 14"),
    ("plan 7 1 0", "refused 20"),
    ("set 4095 4095 0", "ok"),
    ("plan 7 1 0", "refused 25"),
    ("plan 8 0 0", "refused 25"),
    ("plan 7 0 26", "refused 13"),
    ("tick 10 10 0", "ok"),
    ("tick 9 9 1", "ok"),
    ("plan 7 1 27", "octets 080500180101020103" + "080800180101020102"),  # 10 is helped: 9 goes with 8
    ("own 10 10 7", "ok"),
    ("plan 7 1 27", "octets 080500180101020103" + "080900180101020101"),
    ("check 7 1 080500180101020103080900180101020101", "yes"),
    ("check 7 1 08050018010102010303090013", "no"),                     # BLO is none for hardware
    ("check 7 1 080500180101020103080900180001020101", "no"),
    ("act 7 0500180101020103 268", "answer 05001a0101020103"),
    ("check 7 1 080500180101020103080900180101020101", "yes"),
    ("tick 0 4095 0", "ok"),
    ("helper 0 4095 0", "ok"),

    # The tables as at the start.
    ("own 0 4095 0", "ok"),
    ("set 0 4095 0", "ok"),
    ("rows 0 0", "rows 00"),
]
