#!/bin/sh
# One sort of number given for another does not compile, nor does a plain number given for a sort, nor is a sort made or opened
# but by its named functions. Each case is a wrong function in a module that is added to a copy of the crate that declares the
# sorts; the compiler has to refuse each, and for the reason named here. A right function, tried first, has to compile.
set -u
root=$(cd "$(dirname "$0")/.." && pwd)
copy=$(mktemp -d)
trap 'rm -rf "$copy"' EXIT
# a repository of that crate, without its proofs, and of the one that it stands on
mkdir -p "$copy/.git" "$copy/crates/rules/src"
printf 'rules_decimal:\nrules: rules_decimal\n' >"$copy/crates.txt"
(cd "$root/crates" && tar -c --exclude=out --exclude=must-fail rules_decimal rules/src rules/specs) | tar -x -C "$copy/crates"
printf 'pub mod tried;\n' >>"$copy/crates/rules/src/lib.rt"
module=$copy/crates/rules/src/tried.rt

# begin: the module, with no function yet
begin() {
    echo 'use crate::sorts;' >"$module"
    tried=0
}

# add BODY: a function with this body, in one line
add() {
    tried=$((tried + 1))
    printf '\npub fn tried_%s() {\n    %s\n}\n' $tried "$1" >>"$module"
}

# compiled: what the compiler says of the module; no proof is tried
compiled() {
    (cd "$copy/crates/rules" && rt check --only '' 2>&1) | grep -v '^rt: '
}

# made NAME: an expression of that sort
made() {
    case $1 in
        Label) echo 'sorts::Label::from(1u16)' ;;
        Block) echo 'sorts::Block::from(1u8)' ;;
        Thread) echo 'sorts::Thread::from(1u8)' ;;
        Lock) echo 'sorts::Lock::from(1u8)' ;;
        'an integer') echo '1' ;;
    esac
}

begin
add 'let l = sorts::Label::from(1u16); let n = sorts::label_number(l);'
case $(compiled) in
    *error*) echo "sorts: the right function does not compile"; exit 1 ;;
    *only=0*) ;;
    *) echo "sorts: the right function is not compiled"; exit 1 ;;
esac

# refused NAME BODY REASON: a wrong function, and a line with its place and the reason wanted
refused() {
    add "$2"
    printf '%s\t%s\t%s\n' $((4 * tried)) "$3" "$1" >>"$copy/wanted"
}

# judge: whether the compiler says of each wrong function what is wanted
judge() {
    compiled >"$copy/said"
    while IFS=$tab read -r line reason name; do
        said=$(grep "^src/tried.rt:$line:" "$copy/said")
        case $said in
            *"$reason"*) passed=$((passed + 1)) ;;
            *)
                failed=$((failed + 1))
                echo "sorts: $name: expected '$reason', got: $said"
                ;;
        esac
    done <"$copy/wanted"
}

tab=$(printf '\t')
passed=0
failed=0
# (a sort at a time: the compiler stops at twenty errors)
for wanted in Label Block Thread Lock; do
    begin
    : >"$copy/wanted"
    taker=$(echo "$wanted" | tr 'A-Z' 'a-z')_number
    for given in Label Block Thread Lock 'an integer'; do
        [ "$given" = "$wanted" ] && continue
        found="\`$given\`"
        [ "$given" = 'an integer' ] && found=$given
        refused "$given given for $wanted" "let x = $(made "$given"); let n = sorts::$taker(x);" \
            "error[mismatched-types]: expected \`$wanted\`, found $found"
    done
    refused "$wanted made outside" "let x = sorts::$wanted(1);" 'error[private-item]'
    refused "$wanted opened outside" "let x = $(made "$wanted"); let n = x.0;" 'error[private-field]'
    judge
done
echo "sorts: $passed wrong functions refused, $failed let through"
[ "$failed" = 0 ]
