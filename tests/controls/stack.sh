# shellcheck shell=bash
# The computed stack: of a small module with one exported function, which passes as it stands; then with what must not be, one after the other. And the tried one.
export READER_LIBRARY=${READER_LIBRARY:?} READER_CONSOLE=${READER_CONSOLE:?}
folder=$room/stack

# What the exported function does besides, and further parts of the module.
module() { # LINES [PARTS]
    cat >"$folder/module.ll" <<END
target triple = "x86_64-unknown-linux-gnu"
define i64 @styrmflo_text(i64 %m, i64 %l, i32 %t, i32 %p) {
  $1
  %r = call i64 @inner(i64 %m)
  %s = add i64 %r, 1
  ret i64 %s
}
define internal i64 @inner(i64 %n) noinline {
  %room = alloca [8 x i64]
  store volatile i64 %n, ptr %room
  %r = load volatile i64, ptr %room
  ret i64 %r
}
${2:-}
END
}

fresh() {
    rm -rf "$folder"
    cp -R "$room/passing" "$folder"
}

figures() {
    tests/stack.sh --table "$folder" >"$folder/figures" || cat "$folder/figures"
    cp "$folder/figures" "$folder/FIRMWARE.md"
}

# On both processors.
changed() { # NAME TEXT LINES [PARTS]
    module "$3" "${4:-}"
    fails "stack, $1" "x86_64, $2" said_of_it
    passes "stack, $1, aarch64" grep -qF "aarch64, $2" "$folder/said"
}

said_of_it() {
    tests/stack.sh "$folder" >"$folder/said" 2>&1 || { cat "$folder/said"; return 1; }
}

again='define internal i64 @again(i64 %n) noinline {
  %room = alloca i64
  store volatile i64 %n, ptr %room
  %k = load volatile i64, ptr %room
  %z = icmp eq i64 %k, 0
  br i1 %z, label %out, label %more
more:
  %c = call i64 @once_more(i64 %k)
  store volatile i64 %c, ptr %room
  br label %out
out:
  ret i64 %k
}
define internal i64 @once_more(i64 %n) noinline {
  %c = call i64 @again(i64 %n)
  %d = xor i64 %c, %n
  ret i64 %d
}'

# A function with a jump table (which takes 13 cases on aarch64, each with a store that is no other's) that ends with this call.
turning() { # CALLEE
    local n kinds=(i8 i16 i32 i64)
    echo 'define internal i64 @turns(i64 %n, ptr %p, ptr %f) noinline {'
    echo '  switch i64 %n, label %out ['
    for n in {0..15}; do echo "    i64 $n, label %case$n"; done
    echo '  ]'
    for n in {0..15}; do printf 'case%d:\n  store volatile %s %d, ptr %%p\n  br label %%out\n' "$n" "${kinds[n % 4]}" "$((n + 1))"; done
    echo 'out:'
    # so much that it isn't put behind each case
    for n in {1..8}; do echo "  store volatile i64 $n, ptr %p"; done
    printf '  %%r = tail call i64 %s(i64 %%n)\n  ret i64 %%r\n}\n' "$1"
}
turn='%to = inttoptr i64 %l to ptr
  %f = inttoptr i64 %m to ptr
  %c = call i64 @turns(i64 %l, ptr %to, ptr %f)'

mkdir "$folder"
module ''
echo 'uint64_t styrmflo_text(uint64_t message_count, uint64_t literals_count, uint32_t tag, uint32_t payload);' >"$folder/styrmflo.h"
echo '# none' >"$folder/cycles"
figures
passes 'stack, a small module' tests/stack.sh "$folder"
cp -R "$folder" "$room/passing"
changed 'a cycle' 'a cycle: again, once_more' '%c = call i64 @again(i64 %l)' "$again"
changed 'a call that names no function' "styrmflo_text: calls what isn't named" '%f = inttoptr i64 %l to ptr
  %c = call i64 %f(i64 %m)'
changed 'a call of a pointer as the last thing, beside a jump table' "turns: calls what isn't named" "$turn" "$(turning %f)"
for processor in x86_64 aarch64; do passes "stack, it has a jump table on $processor" grep -q '^\.LJTI' "$folder/$processor.s"; done
cp -R "$folder" "$room/turning"
changed 'a function from outside' 'malloc: called outside, and not on the list' '%c = call ptr @malloc(i64 %l)
  store volatile i64 0, ptr %c' 'declare ptr @malloc(i64)'
changed 'memory that is written' '.bss' 'store volatile i64 %l, ptr @count' '@count = internal global i64 0'
changed 'memory that has a value first' '.data' 'store volatile i64 %l, ptr @count' '@count = internal global i64 7'
changed 'a frame above the bound' 'styrmflo_text: 32' '%c = alloca [4096 x i64]
  %d = getelementptr [4096 x i64], ptr %c, i64 0, i64 %l
  store volatile i64 %l, ptr %d'
changed 'a frame of no one size' 'styrmflo_text: changes the stack pointer in a way' '%c = alloca i64, i64 %l
  store volatile i64 %l, ptr %c'
passes 'stack, a frame of no one size, said by the compiler' grep -q 'styrmflo_text.*dynamic: no frame of one size' "$folder/said"
changed "a function that the header hasn't" 'styrmflo_more: exported, and not in the header' '' 'define void @styrmflo_more() {
  ret void
}'
module '%c = alloca [64 x i64]
  %d = getelementptr [64 x i64], ptr %c, i64 0, i64 %l
  store volatile i64 %l, ptr %d'
fails 'stack, another frame than the page says' "isn't so" tests/stack.sh "$folder"

# A cycle that is named counts as often as it says.
module '%c = call i64 @again(i64 %l)' "$again"
echo '7 again once_more' >"$folder/cycles"
figures
passes 'stack, a named cycle' tests/stack.sh "$folder"
passes 'stack, a named cycle counts' grep -q '7 times again and once_more' "$folder/x86_64.bound"
echo '7 again' >"$folder/cycles"
fails 'stack, half of a cycle named' 'again: named as a cycle, and is none' tests/stack.sh "$folder"
fresh
echo '7 inner' >"$folder/cycles"
fails 'stack, a named cycle that is none' 'inner: named as a cycle, and is none' tests/stack.sh "$folder"
fresh
change "$folder/styrmflo.h" 's/^/void styrmflo_more(void);\n/'
fails 'stack, a function of the header that is not exported' 'styrmflo_more: in the header, and not exported' tests/stack.sh "$folder"
fresh
change "$folder/FIRMWARE.md" 's/[0-9]+ \|$/7 |/'
fails 'stack, another figure on the page' "FIRMWARE.md: " tests/stack.sh "$folder"
: >"$folder/FIRMWARE.md"
fails 'stack, no figure on the page' 'is missing' tests/stack.sh "$folder"

# What the compiler says, changed behind its back.
judged() { # NAME TEXT PROCESSOR.END SED-COMMAND
    fresh
    change "$folder/$3" "$4"
    fails "stack, $1" "$2" tests/target/own/release/stack_bound "${3%.*}" "$folder" "$folder/styrmflo.h" "$folder/cycles"
}

# An instruction before the first return.
instruction() { # PROCESSOR INSTRUCTION TEXT
    judged "$2" "$3: \`$2\`" "$1.s" "0,/\\tret/s//\\t$2\\n\\tret/"
}
judged 'nothing said of a frame' 'inner: the compiler says nothing of its frame' x86_64.su '/inner/d'
judged 'nothing said at all' 'styrmflo_text: the compiler says nothing of its frame' x86_64.su d
judged 'a larger frame than the code takes' 'inner: a frame of 7000 bytes, but its code takes' x86_64.su '/inner/s/[0-9]+\t/7000\t/'
judged 'a stack pointer that is set' 'changes the stack pointer in a way' x86_64.s '0,/retq/s//movq %rax, %rsp\n\tretq/'
judged 'a return from deeper than it began' 'returns with 8 bytes' x86_64.s '0,/retq/s//pushq %rax\n\tretq/'
judged 'a function that is left out' 'not in both' x86_64.s '/^inner:/,/^.Lfunc_end/d'
judged 'a jump that no table has' 'goes where no table says' x86_64.s '0,/retq/s//jmpq *%rax/'
judged 'no object' 'no object file' x86_64.o 's/ELF/elf/'
for push in pushfq 'pushw %ax' 'popw %ax' 'popfq' 'xchgq %rsp, %rax' 'xchgq %rax, %rsp' 'addl $8, %esp' 'andq $-32, %rsp' leave; do
    instruction x86_64 "$push" "changes the stack pointer in a way that isn't known here"
done
for call in syscall 'int $128' 'callq *%rax' 'retq $8'; do instruction x86_64 "$call" "calls what isn't named"; done
for strange in 'notrack jmpq *%rax' 'bnd jmp .LBB0_1' 'loop .LBB0_1' '.byte 15' 'nop; nop'; do instruction x86_64 "$strange" "an instruction that isn't known here"; done
for call in 'svc #0' 'blr x0' 'braa x0, x1' 'blraaz x0' retaa 'ret x3' eret; do instruction aarch64 "$call" "calls what isn't named"; done
for set in 'mov sp, x9' 'add wsp, wsp, #16' 'and sp, x9, #0xfffffffffffffff0' 'str x0, [sp, x1]!'; do
    instruction aarch64 "$set" "changes the stack pointer in a way that isn't known here"
done
instruction aarch64 '.inst 0xd65f03c0' "an instruction that isn't known here"

# On x86-64 a remark of the compiler tells such a call; it must not be needed.
rm -rf "$folder"
mv "$room/turning" "$folder"
change "$folder/x86_64.s" 's/# TAILCALL//'
fails 'stack, a call of a pointer as the last thing, with no remark' "turns: calls what isn't named: jumps through a register 2, jump tables 1" \
    tests/target/own/release/stack_bound x86_64 "$folder" "$folder/styrmflo.h" "$folder/cycles"
module "$turn" "$(turning @inner)"
figures
passes 'stack, a jump table, and at the end the call of a function' tests/stack.sh "$folder"

# The reader had more jumps than tables for a while, since the compiler puts a jump behind each way that leads to it; here its first jump stands twice. Each is seen to read a table. Where it isn't, it may be a call.
mkdir "$room/reader"
cp target/stack/x86_64.{s,su,o} docs/styrmflo.h tests/stack/cycles "$room/reader"
awk '{ line[NR] = $0 } !at && /^\tjmpq\t\*%/ && line[NR - 2] ~ /^\tmovslq\t/ { at = NR - 2 }
    END { for (i = 1; i <= NR; i++) { if (i == at) printf "\tje\t.LBB0_9999\n%s\n%s\n%s\n.LBB0_9999:\n", line[i], line[i + 1], line[i + 2]; print line[i] } }' target/stack/x86_64.s >"$room/reader/x86_64.s"
reader=(tests/target/own/release/stack_bound x86_64 "$room/reader" "$room/reader/styrmflo.h" "$room/reader/cycles" memset=256)
passes 'stack, more jumps than tables' "${reader[@]}"
change "$room/reader/x86_64.s" 's/movslq/movzlq/'
fails 'stack, more jumps than tables, and a distance read in another way' "calls what isn't named: jumps through a register" "${reader[@]}"

# A library that isn't the one that is looked at.
fails 'stack, another library' 'not what is looked at here' env READER_LIBRARY=/dev/null tests/stack.sh

# The tried one: a stack too small, and less computed than is seen.
tried=tests/target/release/deep_tables
computed=target/stack/$(uname -m).bytes
fails 'deep tables on 6 KB' 'killed beyond its stack' "$tried" "$computed" 6144
sed -E 's/(styrmflo_check) .*/\1 64/' "$computed" >"$room/less"
fails 'deep tables, less computed than is seen' 'bytes seen, 64 computed' "$tried" "$room/less"
sed '/styrmflo_check/d' "$computed" >"$room/less"
fails 'deep tables, nothing computed' 'styrmflo_check: nothing is computed' "$tried" "$room/less"
# Tables that aren't deep, and such as no walk is made of.
fails 'deep tables, of one level alone' "styrmflo_bench: its pile wasn't used" "$tried" "$computed" 24576 'of 1 levels'
for function in bench display type_check; do
    fails "deep tables, refused ones alone, $function" "styrmflo_$function: its pile wasn't used" "$tried" "$computed" 24576 'with a bad word'
done
fails 'deep tables, none' 'never called' "$tried" "$computed" 24576 'no such table'

# The console program: one that prints nothing; and one that takes stack by the length of its input before it becomes the console program.
console=$READER_CONSOLE
READER_CONSOLE=true
wanted='not what the reference prints'
[ "$(uname -m)" != x86_64 ] || wanted='less than the program must take'
fails 'deep tables, a program that prints nothing' "$wanted" tests/target/release/deep_console
cat >"$room/deeper.c" <<'END'
/* the C library's */
long lseek(int file, long to, int from);
int execv(const char *path, char *const *words);

static int down(long levels)
{
    volatile char taken[64] = {0};
    return levels > 0 ? down(levels - 1) + taken[levels % 64] : 0;
}

int main(int count, char **words)
{
    long bytes = lseek(0, 0, 2);
    if (count < 2 || lseek(0, 0, 0) != 0 || down(bytes * TIMES) != 0)
        return 1;
    return execv(words[1], words + 1);
}
END
# shellcheck source=tests/kit.sh
. tests/kit.sh
deeper() { # TIMES
    tests/c.sh docs/styrmflo.h -O0 "-DTIMES=$1" -c "$room/deeper.c" -o "$room/deeper.o"
    "$kit/bin/rattle-link" --target x86_64-unknown-linux-gnu --toolchain "$kit/toolchain" -o "$room/deeper" "$room/deeper.o" 2>"$room/log"
    READER_CONSOLE=$(tests/start.sh "$room/deeper")$'\n'$console
}
if [ "$(uname -m)" = x86_64 ]; then
    deeper 0
    passes 'deep tables, a program before the console program' tests/target/release/deep_console
    deeper 1
    fails 'deep tables, a program that takes more stack for them' '16 more than the smallest takes: the console program: signal' tests/target/release/deep_console
fi
