# plex show.
tried 'a statement' 0 '^    3  direct    CALL to 6 WITH r0, return to 4$' show "$image"
tried 'a SEND JOBTREE' 0 '^    1            SEND JOBTREE to 3 WITH w0, on to 2$' show "$east"
tried 'a DIVIDE' 0 '^    8            DIVIDE r0, w0 := r0 / r1, on to 9$' show "$east"
tried 'a DECIMAL ADD' 0 '^   11  external  DECIMAL ADD w0 := w0 + r0, on to 12$' show "$east"
tried 'an UNPACK' 0 '^   12            UNPACK r0 := r0, on to 13$' show "$east"
altered "$east" digits 936:1 937:102 938:0 939:1 940:244 941:22 1020:1 1021:64 1022:22
tried 'a packed number, and one that is not' 0 \
    '^   11  external  DECIMAL ADD w0 := packed 0042 + (not packed: 0x12a4), on to 12$' show digits
tried 'a number to be unpacked' 0 '^   12            UNPACK r0 := packed 1234, on to 13$' show digits
byte digits 1008 15 packed-digits
tried 'a number to be packed' 0 '^   12            PACK r0 := 4660, on to 13$' show packed-digits
tried 'its block' 0 '^block 1$' show "$image"
byte "$image" 0 143 bad
tried 'unknown opcode' 1 '^    0  external  unknown opcode 99$' show bad
tried 'said too' 1 'bad: the record at label 0 (block 0) breaks a rule' show bad
byte "$image" 1 143 bad
tried 'unknown block' 1 '^no block$' show bad
byte "$east" 684 2 bad
tried 'one destination for both results' 1 '^    8            DIVIDE r0, r0 := r0 / r1, on to 9$' show bad
tried 'said too' 1 'both destinations are register 0' show bad
tried 'show a short file' 1 'case.table: 48 bytes; an image is' show "$table"

# ---- with its table
tried 'a block with its row' 0 '^block 1: thread 0, CMX, lock 9$' show "$image" "$table"
holds 'a heading for each block' [ "$(grep -c '^block [0-4]: thread [01], CMX, lock [0-9]$' said)" = 5 ]
byte "$table" 1 0 fd
tried 'an FD block' 0 '^block 0: thread 0, FD, lock 0$' show "$image" fd
byte "$table" 1 2 bad
tried 'a bad table' 1 '^block 0: thread 0, unknown kind 2, lock 0$' show "$image" bad
tried 'said too' 1 'bad: block 0 (thread 0, kind 2, lock 0) has a field out of range' show "$image" bad
head -c 47 "$table" >short
tried 'a short table' 1 '^block 0$' show "$image" short
tried 'said too' 1 'short: 47 bytes; a block table is 48' show "$image" short
byte "$image" 1 143 bad
tried 'no block, with a table' 1 '^no block$' show bad "$table"
tried 'its record' 1 'bad: the record at label 0 (block 99) breaks a rule' show bad "$table"
"$plex" show - "$table" <"$image" >said 2>&1
holds 'an image from standard input, with a table' grep -q '^block 4: thread 1, CMX, lock 4$' said
