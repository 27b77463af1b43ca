# plex state.
tried 'eight events' 0 'threads running: 0 1' \
    run "$image" "$table" "$words" eight --summary
tried 'a thread' 0 '  0  at label 6, locks 0 9, return labels 1 4, registers r0=25' state waiting
tried 'a lock' 0 '^  lock 9 is held by thread 0$' state waiting
tried 'a queue' 0 '  thread 0: tree 0 (its job runs), tree 1' state waiting
tried 'a signal' 0 '    label 8 WITH 999' state waiting
tried 'a word' 0 '  block 1: w0=120' state waiting
tried 'a thread that holds a signal' 0 \
    '^  2  at label 2, locks 5, return labels none, registers r0=25$' state holding
tried 'a held signal' 0 '^    held label 3 WITH 25$' state holding
byte holding 1163 377 bad
tried 'a held count above its limit' 0 '^    held label 0$' state bad
tried 'a short state' 1 'short-state: 9,632 bytes; a state is 9,633 bytes' state short-state
tried 'a long state' 1 '^plex: long-state: 9,681 bytes; a state is 9,633 bytes$' state long-state
"$plex" state - <long-state >said 2>&1
holds 'a long state from standard input' grep -q '^plex: standard input: 9,681 bytes; a state is' said
{ dd bs=10 count=1 of=read 2>/dev/null; "$plex" state -; } <long-state >said 2>&1
holds 'the rest of a long state' grep -q '^plex: standard input: 9,671 bytes; a state is' said
cat long-state | "$plex" state - >said 2>&1
holds 'a long state from a pipe' grep -q '^plex: standard input: more than 9,633 bytes; a state is 9,633 bytes$' said

# ---- with its image and table
tried 'a well-formed state' 0 '^well formed with good/case.image and good/case.table$' \
    state "$image" "$table" waiting
tried 'and it is shown' 0 '^  lock 0 of block 0 is held by thread 0$' state "$image" "$table" waiting
tried 'with the blocks of a group' 0 '^  lock 9 of blocks 1 2 is held by thread 0$' state "$image" "$table" waiting
"$plex" state "$image" "$table" waiting | head -n 9 >said
cat >expected <<'END'
threads
  0  at label 6, locks 0 9, return labels 1 4, registers r0=25
    label 6, block 2: ASSIGN r0 := r0 * r1, on to 7
    return label 1, block 0: ASSIGN w0 := w0 + 1, on to 2
    return label 4, block 1: ASSIGN w0 := w0 + r0, on to 5
  1  at label 9, locks 4, return labels none, registers none
    label 9, block 4: CALL to 12, return to 10
  2  idle, locks none, return labels none
  3  idle, locks none, return labels none
END
same 'with the statements of running threads' said expected
tried 'without an image' 0 '^  0  at label 6' state waiting
holds 'a statement without an image' lacks said '^    label 6'
tried 'a statement before held signals' 0 '^    label 2, block 5: EXIT$' state "$east" "$table" holding
holds 'a held signal with its image' grep -q '^    held label 3 WITH 25$' said
byte waiting 512 143 bad
tried 'a bad state is shown without an image' 0 '  0  at label 99, locks 0 9' state bad
tried 'a bad state is shown with its image' 1 '  0  at label 99, locks 0 9' \
    state "$image" "$table" bad
holds 'a label past the image' grep -q '^    label 99: the image has no such label$' said
tried 'and refused' 1 'bad: not well formed with good/case.image and good/case.table' \
    state "$image" "$table" bad
tried 'for its cause' 1 'thread 0 has label 99, and the image.s labels are below 13' \
    state "$image" "$table" bad
byte holding 1164 0 bad
tried 'for a held signal' 1 \
    'held signal 0 of thread 2: its label is 0, whose entry is external, and not buffered' \
    state "$east" "$table" bad
byte waiting 512 143 bad
tried 'with its number' 1 'refused with number 6, place 0' state "$image" "$table" bad
tried 'a short state with its image' 1 'short-state: 9,632 bytes; a state is 9,633 bytes' \
    state "$image" "$table" short-state
tried 'a state with a bad image' 1 'case.table: 48 bytes; an image is' state "$table" "$table" waiting
holds 'a statement of no image' lacks said '^    label 6'
byte waiting 516 377 bad
tried 'more return labels than there is room for' 1 'thread 0 has 255 return labels' state "$image" "$table" bad
holds 'those that there is room for' [ "$(grep -c '^    return label' said)" = 8 ]
byte "$image" 504 143 bad
tried 'a statement that breaks a rule' 1 '^    label 6, block 2: unknown opcode 99$' state bad "$table" waiting
byte "$image" 1 377 bad
tried 'a state with a bad block' 1 '^  lock 9 of blocks 1 2 is held by thread 0$' state bad "$table" waiting
byte "$table" 5 377 bad
tried 'a state with a bad lock' 1 '^  lock 9 of block 2 is held by thread 0$' state "$image" bad waiting
tried 'a state with a short table' 1 '^  lock 9 is held by thread 0$' state "$image" former-table waiting
tried 'a state without its table' 2 '^plex: there are 2 files, and 1 or 3 are wanted: STATE alone, or IMAGE TABLE STATE$' \
    state "$image" waiting
