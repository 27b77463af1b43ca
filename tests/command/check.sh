# plex check: bad files, and bad bytes in files of the right length.
tried 'good image' 0 'accepted: good/case.image, 13 records in 5 blocks' check "$image" "$table"
tried 'a group' 0 '^lock 9 guards blocks 1 2$' check "$image" "$table"
holds 'one group' [ "$(wc -l <said)" = 2 ]
holds 'no other block with its lock' [ "$(od -An -v -tu1 -w3 "$table" | grep -c ' 9$')" = 2 ]
tried 'no group' 0 'accepted' check "$image" lone-table
holds 'no group: a line more' [ "$(wc -l <said)" = 1 ]
head -c 48 /dev/zero >one-group
tried 'one group of all' 0 '^lock 0 guards blocks 0 1 2 3 4$' check "$image" one-group
tried 'a folder' 1 'good: cannot be read: Is a directory' check good "$table"
tried 'empty image' 1 'empty: 0 bytes; an image is 84 bytes a record' check empty "$table"
head -c 1091 "$image" >short
tried 'short image' 1 'short: 1,091 bytes; an image is' check short "$table"
head -c 84 "$image" >one
repeated one 513 long
tried 'long image' 1 'long: 43,092 bytes; an image is' check long "$table"
tried 'its number' 1 'refused with number 1, place 0' check long "$table"
head -c 47 "$table" >short
tried 'short table' 1 'short: 47 bytes; a block table is 48 bytes: thread, kind and lock of' check "$image" short
head -c 49 "$image" >long
tried 'long table' 1 'long: 49 bytes; a block table is 48' check "$image" long
tried 'a table of a former format' 1 \
    '^plex: former-table: 32 bytes, as a table had in format 2 or before; today.s has 48: plex upgrade table takes it over$' \
    check "$image" former-table
tried 'its number' 1 'refused with number 2, place 0' check "$image" former-table

byte "$table" 15 10 bad
tried 'thread' 1 'bad: block 5 (thread 8, kind 1, lock 5) has a field out of range' check "$image" bad
tried 'why' 1 'its thread is 8, and threads are 0 to 7' check "$image" bad
byte "$table" 19 2 bad
tried 'kind' 1 'block 6 .*' check "$image" bad
tried 'why' 1 'its kind is 2, and kinds are 0 (FD) and 1 (CMX)' check "$image" bad
byte "$table" 47 20 bad
tried 'lock' 1 'bad: block 15 (thread 0, kind 0, lock 16) has a field out of range' check "$image" bad
tried 'why' 1 'its lock is 16, and locks are 0 to 15' check "$image" bad
tried 'its number' 1 'refused with number 3, place 15' check "$image" bad
# faulty OFFSET OCTAL PATTERN: a copy of the whole image with one byte changed is refused
whole=$image
faulty() {
    byte "$whole" "$1" "$2" bad
    tried "byte $1 of $whole set to octal $2" 1 "$3" check bad "$table"
}
faulty 0 20 'opcode 16 is none of 1 to 15'
faulty 0 14 'its operand count is 1, and DIVIDE has 4'
faulty 0 13 'label A is 3, whose entry is direct, and the signal of SEND JOBTREE has entry buffered'
faulty 84 0 'opcode 0 is none of'
faulty 1 20 'its block is 16, and blocks are 0 to 15'
faulty 2 4 'its entry is 4, and entries are 0 to 3'
faulty 3 1 'CALL has no operator, so byte 3 is 0 and not 1'
faulty 87 5 'operator 5 of ASSIGN is none of 1 to 4'
faulty 4 15 'label A is 13, and the image.s labels are below 13'
faulty 4 4 'label A is 4, whose entry is none, and the signal of CALL has entry direct'
faulty 6 3 'label B is 3, in block 1, and here it is in the record.s block 0'
faulty 90 1 'ASSIGN uses no label B, so it is 0 and not 1'
faulty 8 32 'its operand count is 26, and CALL has 0 to 25'
faulty 92 2 'its operand count is 2, and ASSIGN + has 3'
faulty 9 4 'operand 0 has kind 4'
faulty 10 31 'operand 0 is register 25, and registers are 0 to 24'
faulty 94 20 'operand 0 is shared word 16'
faulty 93 1 'the destination is a number'
faulty 83 1 'a byte after its last operand is not 0'
faulty 508 143 'record at label 6 (block 2) breaks a rule: ASSIGN r0 := r0 \* r1, on to 99'

# ---- a division, at label 8 of East's image
whole=$east
faulty 675 1 'DIVIDE has no operator, so byte 3 is 0 and not 1'
faulty 676 5 'label A is 5, in block 7, and here it is in the record.s block 8'
faulty 678 1 'DIVIDE uses no label B, so it is 0 and not 1'
faulty 680 3 'its operand count is 3, and DIVIDE has 4'
faulty 681 1 'the quotient.s destination is a number, and it is a register or a shared word'
faulty 684 1 'the remainder.s destination is a number, and it is a register or a shared word'
faulty 681 3 'both destinations are shared word 0, and DIVIDE has two different ones'
faulty 684 2 'both destinations are register 0, and DIVIDE has two different ones'
faulty 684 2 'record at label 8 (block 8) breaks a rule: DIVIDE r0, r0 := r0 / r1, on to 9$'
faulty 684 2 'refused with number 4, place 8$'
faulty 693 1 'a byte after its last operand is not 0'

# ---- a decimal sum, at label 11 of East's image, an unpacking, at label 12, and a packing in its place
faulty 927 2 'DECIMAL ADD has no operator, so byte 3 is 0 and not 2'
faulty 928 10 'label A is 8, in block 8, and here it is in the record.s block 9'
faulty 930 1 'DECIMAL ADD uses no label B, so it is 0 and not 1'
faulty 932 2 'its operand count is 2, and DECIMAL ADD has 3'
faulty 933 1 'the destination is a number, and it is a register or a shared word'
faulty 933 1 'record at label 11 (block 9) breaks a rule: DECIMAL ADD 0 := w0 + r0, on to 12$'
faulty 942 1 'a byte after its last operand is not 0'
faulty 924 16 'its operand count is 3, and UNPACK has 2'
faulty 1011 1 'UNPACK has no operator, so byte 3 is 0 and not 1'
faulty 1014 1 'UNPACK uses no label B, so it is 0 and not 1'
faulty 1017 1 'the destination is a number, and it is a register or a shared word'
faulty 1008 17 'its operand count is 2, and DECIMAL ADD has 3'
tried 'a packing' 0 'accepted' check packing "$table"
whole=packing
faulty 1011 4 'PACK has no operator, so byte 3 is 0 and not 4'
faulty 1014 1 'PACK uses no label B, so it is 0 and not 1'
faulty 1016 1 'its operand count is 1, and PACK has 2'
faulty 1017 1 'the destination is a number, and it is a register or a shared word'
