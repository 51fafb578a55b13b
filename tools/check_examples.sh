#!/usr/bin/env bash
# Makes the input of each example again from its text, and runs the program on the stored one: the wave program on NAME.wave, and
# outside on NAME.outside, where inputs change at times of their own. All must give the stored bytes, the programs those of
# NAME.out. Where a circuit file is stored in both editions, NAME.former and NAME.circuit, convert must turn each into the other.
# Another simulator of wave inputs may be named instead; it is then run on these alone.
cd "$(dirname "$0")/.."
wave=${1:-target/bin/wave}
outside=target/bin/outside
convert=target/bin/convert
for program in wave outside convert; do
  if [ $# = 0 ] && [ ! -x "target/bin/$program" ]; then
    echo "target/bin/$program is not built yet: bash tools/programs.sh $program builds it"
    exit 1
  fi
done
examples=0 differ=0
for text in examples/*.txt; do
  name=${text%.txt}
  if [ -e "$name.wave" ]; then
    stored=$name.wave option= program=$wave
  else
    stored=$name.outside option=--outside program=$outside
  fi
  python3 tools/circuit_file.py $option "$text" | cmp - "$stored" || differ=$((differ + 1))
  [ $# = 0 ] || [ "$program" = "$wave" ] || continue
  $program < "$stored" | cmp - "$name.out" || differ=$((differ + 1))
  examples=$((examples + 1))
done
for former in examples/*.former; do
  name=${former%.former}
  python3 tools/circuit_file.py --former "$name.txt" | cmp - "$former" || differ=$((differ + 1))
  python3 tools/circuit_file.py --circuit "$name.txt" | cmp - "$name.circuit" || differ=$((differ + 1))
  [ $# = 0 ] || continue
  $convert < "$former" 2> /dev/null | cmp - "$name.circuit" || differ=$((differ + 1))
  $convert < "$name.circuit" 2> /dev/null | cmp - "$former" || differ=$((differ + 1))
done
echo "$examples examples, $differ files differ"
[ "$differ" = 0 ]
