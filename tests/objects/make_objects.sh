#!/bin/sh
# Builds the objects of this folder from its sources by gcc and clang for RISC-V; make_samples.py prints what crates/ has of them.
# Each object is relocatable RV64I with the soft-float ABI: e_flags 0, no group, no thread-local data, no list of initialisers.
set -eu
cd "$(dirname "$0")"

machine="-march=rv64i -mabi=lp64"
plain="-O2 -ffreestanding -fno-ident -fno-pic -fno-stack-protector"
no_unwind="-fno-asynchronous-unwind-tables -fno-unwind-tables"
gnu="riscv64-linux-gnu-gcc $machine $plain"
elf="riscv64-unknown-elf-gcc $machine $plain"
llvm="clang --target=riscv64 $machine -mno-relax $plain -fno-addrsig"

# A jump table of 32-bit addresses, and one of differences.
$gnu $no_unwind -fno-tree-switch-conversion -mcmodel=medlow -c switch.c -o switch_medlow.o
$elf $no_unwind -fno-tree-switch-conversion -mcmodel=medany -c switch.c -o switch_medany.o
$llvm $no_unwind -mcmodel=medium -c switch.c -o switch_clang.o

# Pointers in data.
$gnu $no_unwind -mcmodel=medany -c pointers.c -o pointers.o
$llvm $no_unwind -mcmodel=small -c pointers.c -o pointers_clang.o

# Strings, calls to other objects, and `.eh_frame`.
$gnu -fasynchronous-unwind-tables -mcmodel=medlow -c strings.c -o strings.o
$llvm -fasynchronous-unwind-tables -mcmodel=medium -c strings.c -o strings_clang.o

# Commons and zeroed data.
$elf $no_unwind -fcommon -msmall-data-limit=0 -mcmodel=medlow -c commons.c -o commons.o

# Many sections, without relaxation.
$gnu $no_unwind -mno-relax -ffunction-sections -fdata-sections -mcmodel=medany -c sections.c -o sections.o

# Assembly.
riscv64-linux-gnu-gcc $machine -c addressing.s -o addressing.o
clang --target=riscv64 $machine -mno-relax -c addressing.s -o addressing_clang.o
riscv64-unknown-elf-gcc $machine -c differences.s -o differences.o
riscv64-linux-gnu-gcc $machine -mno-relax -c entries.s -o entries.o
riscv64-linux-gnu-gcc $machine -mno-relax -c order.s -o order.o

# Programs that stand alone and name no register that is reserved: a jump table of addresses, distances from the pc,
# differences of labels, commons.
own="-ffixed-t5 -ffixed-t6 -msmall-data-limit=0"
$gnu $no_unwind $own -fno-tree-switch-conversion -mcmodel=medlow -c menu.c -o menu.o
$gnu $no_unwind $own -mcmodel=medany -c tree.c -o tree.o
$elf $no_unwind $own -mcmodel=medany -c spans.c -o spans.o
$elf $no_unwind $own -fcommon -mcmodel=medlow -c shared.c -o shared.o

# The same, independent of its position, with a table of addresses.
$gnu $no_unwind $own -fno-toplevel-reorder -fpic -mcmodel=medany -c slots.c -o slots.o

# Three files that are one program, for make_links.py: of gcc, the first two with a table of addresses, and of a clang that keeps
# registers.
together="$machine -O1 -ffreestanding -fno-ident -fno-stack-protector $no_unwind -fcommon -msmall-data-limit=0"
for name in first second third; do
    case $name in third) pic=-fno-pic ;; *) pic=-fpic ;; esac
    (cd links && riscv64-linux-gnu-gcc $together -ffixed-t5 -ffixed-t6 -mcmodel=medlow $pic -c $name.c -o $name.o)
    (cd links && clang-16 --target=riscv64 $together -ffixed-x30 -ffixed-x31 -fno-addrsig -mcmodel=small -fno-pic -c $name.c -o ${name}_clang.o)
done

python3 make_samples.py --check
