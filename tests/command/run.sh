# plex run: traces, summaries, states and answers.
tried 'a trap' 0 '11  step of thread 0, label 8: RETURN WITH r0 *trap 2, RETURN with no return' \
    run "$image" "$table" "$words" "$events" --out left --answers answers
printf '\001\000\001\000\001\000\005\000\006\000\005\000\004\011\006\000' >expected
printf '\010\001\006\000\005\000\010\002\006\000\006\000\007\000' >>expected
same 'answers' answers expected
tried 'a wait' 0 '6  step of thread 1, label 9: CALL to 12, .* waiting for lock 9 of blocks 1 2; at label 9, locks 4,' \
    run "$image" "$table" "$words" "$events"
tried 'a summary' 0 '^15 events in 1 call$' \
    run "$image" "$table" "$words" "$events" --summary --out left-2 --answers answers-2
same 'state of a summary' left left-2
same 'answers of a summary' answers answers-2
tried 'from a state' 0 '3  started' \
    run "$image" "$table" --state left "$events" --summary --out left-2
tried 'the audit read 120' 0 '  block 4: w0=120' state left-2
cp left-2 in-place
tried 'a state in place' 0 'all threads idle' \
    run "$image" "$table" "$events" --state in-place --out in-place
same 'state in place' in-place left-2
tried 'no events' 0 '^0 events in 1 call$' run "$image" "$table" "$words" empty --out left-2
tried 'a fresh state' 0 'all are empty' state left-2

"$plex" run "$image" "$table" "$words" "$events" --summary --answers /dev/stderr 2>piped >said
holds 'answers to a stream' [ "$(wc -c <piped)" = 30 ]
ln -s left-2 link
tried 'a link' 0 'all threads idle' run "$image" "$table" "$words" "$events" --out link
holds 'a link stays one' [ -h link ]
same 'the file of a link' left left-2

# ---- held signals: in the trace, as new trees, lost at a full list, and one too many
tried 'a held signal' 0 'SEND JOBTREE to 3 WITH w0, on to 2 *moved on; at label 2, .*, held labels 3$' \
    run "$east" "$table" "$words" to-holding
tried 'an EXIT that founds a tree' 0 'label 2: EXIT *EXIT; idle, locks none, return labels none$' \
    run "$east" "$table" step-2 --state holding --out left-2
tried 'the tree founded' 0 '^  tree 0 on thread 3, 1 pending$' state "$east" "$table" left-2
tried 'its signal' 0 '^    label 3 WITH 25$' state left-2
tried 'and nothing lost' 0 '^           1  EXIT$' run "$east" "$table" step-2 --state holding --summary
holds 'a word of loss' lacks said 'lost'
altered holding two-held 1163:2 1217:3
repeated arrival 15 full
cat step-2 >>full
tried 'a lost signal' 0 'label 2: EXIT *EXIT, 1 held signal lost; idle' run "$east" "$table" full --state two-held
tried 'a lost signal in the summary' 0 '^           1  held signal lost at EXIT$' \
    run "$east" "$table" full --state two-held --summary
byte "$east" 90 1 endless
cat to-holding step-2 step-2 step-2 step-2 >five-sends
tried 'a fifth SEND JOBTREE' 0 'trap 6, SEND JOBTREE with 4 signals held; idle, locks none, return labels none$' \
    run endless "$table" "$words" five-sends

# ---- subtraction: East's charging is sent 25 with a balance of 20, and then the whole balance
altered arrival charge 2:5
cat charge step-2 step-2 >charged
tried 'a subtraction below zero' 0 \
    'label 5: ASSIGN w0 := w0 - r0, on to 6 *trap 7, subtraction below zero; idle, locks none, return labels none$' \
    run "$east" "$table" "$words" charged --out left-2
tried 'its balance' 0 '^  block 7: w0=20$' state left-2
tried 'in the summary' 0 '^           1  of the traps: 7, subtraction below zero$' \
    run "$east" "$table" "$words" charged --summary
altered charged whole 5:24
tried 'the whole balance' 0 'label 5: ASSIGN w0 := w0 - r0, on to 6 *moved on; at label 6, locks 7,' \
    run "$east" "$table" "$words" whole --out left-2
tried 'what was not charged' 0 '^  block 1: w0=120$' state left-2
holds 'a balance that is left' lacks said 'block 7'

# ---- division: East's tariff keeps 7 pulses and is sent 25, at 10 a unit, at none, and without a number
altered arrival pulses 2:7 4:2 7:12
cat pulses step-2 step-2 step-2 >to-units
cat to-units step-2 step-2 >divided
tried 'a division' 0 \
    'label 8: DIVIDE r0, w0 := r0 / r1, on to 9 *moved on; at label 9, locks 8, return labels none$' \
    run "$east" "$table" "$words" to-units --out left-2
tried 'its quotient' 0 '^  2  at label 9, .*, registers r0=3 r1=10$' state left-2
tried 'its remainder' 0 '^  block 8: w0=2$' state left-2
tried 'units charged' 0 '^           1  EXIT$' run "$east" "$table" "$words" divided --summary --out left-2
tried 'and pulses kept' 0 '^  block 8: w0=2 w1=3$' state left-2
altered divided by-zero 7:0
tried 'a division by zero' 0 \
    'label 8: DIVIDE r0, w0 := r0 / r1, on to 9 *trap 8, division by zero; idle, locks none, return labels none$' \
    run "$east" "$table" "$words" by-zero --out left-2
tried 'what it leaves' 0 '^  block 8: w0=7$' state left-2
tried 'in the summary' 0 '^           1  of the traps: 8, division by zero$' \
    run "$east" "$table" "$words" by-zero --summary
altered to-units without-unit 4:1 7:0
tried 'no number of pulses' 0 'label 8: DIVIDE .* trap 1, an absent register is read; idle' \
    run "$east" "$table" "$words" without-unit

# ---- packed decimal: East's meter has 9950 and is sent 0075, a counter with a digit of 10, and none
altered arrival counter 2:13 5:165
cat counter step-2 step-2 step-2 >counted
tried 'a decimal sum' 0 \
    'DECIMAL ADD w0 := w0 + r0, on to 12 *moved on; read packed 9950, packed 0075, stored packed 0025; at label 12, locks 1,' \
    run "$east" "$table" "$words" counted --out left-2
holds 'an unpacking' \
    grep -q 'label 12: UNPACK r0 := r0, on to 13 *moved on; read packed 0075, stored 75; at label 13, locks 1,' said
holds 'the start of its job' grep -q '1  step of thread 2 *started; at label 11, locks 1, return labels none$' said
tried 'its register' 0 '^  2  at label 13, .*, registers r0=75$' state left-2
tried 'its word, as a number' 0 '^  block 9: w0=37$' state left-2
cat counted step-2 step-2 >metered
tried 'pulses metered' 0 '^           1  EXIT$' run "$east" "$table" "$words" metered --summary --out left-2
tried 'and the counter' 0 '^  block 9: w0=37 w1=75$' state left-2
altered metered bad-digit 5:247
tried 'a digit above 9' 0 \
    'trap 9, a number above 9,999 packed, or a digit above 9; read packed 9950, (not packed: 0x00a7); idle, locks none,' \
    run "$east" "$table" "$words" bad-digit --out left-2
tried 'what it leaves' 0 '^  block 9: w0=39248$' state left-2
tried 'in the summary' 0 '^           1  of the traps: 9, a number above 9,999 packed, or a digit above 9$' \
    run "$east" "$table" "$words" bad-digit --summary
altered metered no-counter 4:0 5:0
tried 'no counter' 0 'label 11: DECIMAL ADD .* trap 1, an absent register is read; read packed 9950, absent; idle' \
    run "$east" "$table" "$words" no-counter
altered step-2 cut-2 0:3
cat counter step-2 cut-2 >cut-short
tried 'a cut before it' 0 'cut of thread 2, label 11: DECIMAL ADD w0 := w0 + r0, on to 12 *cut; idle' \
    run "$east" "$table" "$words" cut-short

# ---- the packing, where an arrival comes in: of 75, and of 10,000
byte packing 1010 3 packing-entry
altered arrival number 2:14 5:113
cat number step-2 step-2 >packed
tried 'a packing' 0 'label 12: PACK r0 := r0, on to 13 *moved on; read 75, stored packed 0075; at label 13, locks 1,' \
    run packing-entry "$table" "$words" packed --out left-2
tried 'its register' 0 '^  2  at label 13, .*, registers r0=117$' state left-2
altered packed too-large 5:20 6:47
tried 'a number above 9,999' 0 'trap 9, a number above 9,999 packed, or a digit above 9; read 10000; idle, locks none,' \
    run packing-entry "$table" "$words" too-large

# ---- what the demo runs, from the files that it writes: the same answers, and the words of blocks 8 and 9
tried 'what the demo runs' 0 '^45 events in 1 call$' \
    run "$demo_image" "$table" "$words" "$demo_events" --summary --out left-2 --answers answers-2
"$demo" | sed -n 's/^    answer    code \([0-9]*\), detail \([0-9]*\): .*/\1 \2/p' >demo-answers
od -An -v -t u1 -w2 answers-2 | awk '{ print $1, $2 }' >file-answers
same "the demo's answers" demo-answers file-answers
tried "the demo's tariff" 0 '^  block 8: w0=2 w1=3$' state left-2
tried "the demo's meter" 0 '^  block 9: w0=37 w1=75$' state left-2

tried '4,500 events' 0 '^4,500 events in 5 calls$' \
    run "$image" "$table" "$words" many --summary --out left --answers answers
holds 'a count above 1,000' grep -q '^       1,500  moved on$' said
tried 'the same one by one' 0 '^4,500 events in 4,500 calls$' \
    run "$image" "$table" "$words" many --out left-2 --answers answers-2
same 'state of many' left left-2
same 'answers of many' answers answers-2
tail -c +1 many | "$plex" run "$image" "$table" "$words" /dev/stdin --summary --out left-3 >said
same 'state of events from a pipe' left left-3
