#!/bin/bash
# gate.sh DIR NAME: rt ci in DIR, stamped log
cd "$1" || exit 1
date +%s > /work/scratch/logs/$2.start
python3 /work/scratch/begun/tools/sampler.py /work/scratch/logs/$2.cpu.tsv & S=$!
{ time rt ci; echo "status $?"; } 2>&1 | while IFS= read -r l; do printf "%(%H:%M:%S)T %s\n" -1 "$l"; done > /work/scratch/logs/$2.log
kill $S
date +%s > /work/scratch/logs/$2.end
