# What ./vss says below the program's one line on the standard error. It reads this file if the program ended with another status than 0, with
# `program`, `slow` and `started_at` set, and the functions `usage`, `folder_of` and `quoted`. File 5 has what was read of a pipe or a terminal.
# shellcheck shell=bash
: "${program:?the program}" "${started_at:?where the standard input was}" "${slow?whether the build is slow}"

# The name of the file that the standard input is, where it is one.
name_of_input() {
  local name
  [ -f /dev/stdin ] && name="$(readlink /proc/self/fd/0 2> /dev/null)" && [ -f "$name" ] || return
  case "$name" in "$PWD"/*) name="${name#"$PWD"/}" ;; esac
  echo "     in $name:"
}

# Says by vss_tools what is wrong.
explain_by() {
  local program
  program="$(program_to_run vss_tools)" && "$program" explain "$@"
}

# Says of a refused scenario which line it is, what stands there, and what was expected. A file is read again, from where it was read.
explain_scenario() {
  if [ -f /dev/stdin ]; then
    name_of_input
    tail -c "+$((started_at + 1))" < /dev/stdin | explain_by scenario
  elif { true <&5; } 2> /dev/null; then
    explain_by scenario < /dev/fd/5
  elif [ "$(readlink /proc/self/fd/0)" = /dev/null ]; then
    explain_by scenario < /dev/null
  fi
}

# Numbers of four bytes of a file, from a byte on.
numbers_at() { od -An -v -tu4 -j"$2" -N"$((4 * $3))" --endian=little < "$1" | tr -s '\n ' ' '; }

# Says how long a file is, and how long an area of so many slots as its header has is.
say_length() {
  local size slots wanted
  size="$(stat -Lc %s "$1")"
  slots=$(($(numbers_at "$1" 12 1)))
  wanted=$((16384 * (1 + (slots + 1023) / 1024 + slots)))
  [ "$slots" -le 65536 ] || echo "     its header has $slots slots, and an area has 65536 at most"
  [ "$size" = "$wanted" ] || echo "     it has $size bytes, and for the $slots slots of its header an area has $wanted"
}

# Says what stands in a refused record, and in the header that it is held against.
say_record() {
  local layout slots volumes set block volume rest blocks first=24
  read -r layout slots _ volumes <<< "$(numbers_at "$1" 8 4)"
  read -r set block volume rest <<< "$(numbers_at "$1" $((16384 + 16 * $2)) 4)"
  [ "$layout" = 2 ] || volumes=1 first=20
  blocks="$(numbers_at "$1" "$first" "$volumes")"
  echo "     record $2, at byte $((16384 + 16 * $2)), has set $set, block $block, volume $volume, and $rest in its last four bytes"
  echo "     the header has $slots slots, and volumes of so many blocks, from volume 0 on:${blocks% }"
  echo "     a record is zeros, or of a set above 0, and of a volume, a block and a slot that there are, and no earlier one is equal"
}

# Says of an input that is no diff area what it is, or what the part of it that the program refuses has to be. A file is read again from its
# start, where the program read it from there.
explain_area() {
  local input="" said
  if [ -f /dev/stdin ]; then
    name_of_input
    [ "$started_at" != 0 ] || input=/dev/stdin
  elif { true <&5; } 2> /dev/null; then
    input=/dev/fd/5
  elif [ "$(readlink /proc/self/fd/0)" = /dev/null ]; then
    input=/dev/null
  fi
  if [ -n "$input" ] && [ "$(head -c 1 < "$input" | wc -c)" = 0 ]; then
    echo "     the input is empty"
    return
  fi
  [ -z "$input" ] || said="$("$program" inspect < "$input" 2>&1 > /dev/null)"
  case "${said-}" in
    *" Magic "*)
      case "$(head -c 4096 < "$input" | tr -d '\0' | grep -am 1 -ve '^#' -e '^$')" in
        scenario*) echo "     it is a scenario: ./vss run < FILE" ;;
        *) echo "     an area begins with the letters VSSAREA1; ./vss run FOLDER leaves them as NAME.area or NAME.shared" ;;
      esac
      ;;
    *" Layout "*) echo "     the layout, in the bytes 8 to 11, is 1 or 2" ;;
    *" Slots "*) say_length "$input" ;;
    *" Volumes "*) echo "     the number of volumes, in the bytes 20 to 23, is 1 to 128" ;;
    *" Blocks "*) echo "     a volume has 1 to 65536 blocks; the header has the number of each from byte 24 on, or in layout 1 in the bytes 20 to 23" ;;
    *" Rest "*) echo "     the header has zeros behind the blocks of the last volume; a byte there is another" ;;
    *" Used "*) echo "     the bytes 16 to 19 have another number than there are records that are not zeros" ;;
    *" record "*) say_record "$input" "${said##* }" ;;
  esac
  echo "     the input is no diff area: docs/FORMATS.md says what its header and its records have to be"
}

# Says of a folder with files of an earlier run that no run goes on from them.
explain_folder() {
  local folder
  folder="$(folder_of "$@")"
  if [ -n "$(find "$folder" -maxdepth 1 '(' -name '*.vol' -o -name '*.area' -o -name '*.shared' ')' -print -quit 2> /dev/null)" ]; then
    echo "     $folder has volumes or areas already, and no run goes on from them; ./vss inspect < FILE lists an area, and docs/LIBRARY.md"
    echo "     says how a program of your own takes volumes up again"
  fi
  echo "     no file of this run is left; make room, or name a folder without such files in which you may write, and run it again"
}

# Says below the program's line what helps a person to go on.
explain() {
  local status="$1"
  shift
  case "$status" in
    2)
      explain_by words "$@"
      if [ "$#" = 2 ] && [ "$1" = inspect ] && [ -f "$2" ]; then
        echo "     the area is read from the standard input: ./vss inspect < $(quoted "$2")"
      elif [ "$#" = 1 ] && [ -f "$1" ]; then
        echo "     a scenario is read from the standard input: ./vss run < $(quoted "$1")"
      fi
      usage
      ;;
    3) explain_scenario ;;
    4)
      [ ! -d /dev/stdin ] || echo "     the standard input is a folder"
      [ "$(readlink /proc/self/fd/0)" != /dev/null ] || echo "     the standard input is closed"
      echo "     the standard input could not be read to its end; nothing was run; ./vss $1 < FILE reads a file"
      ;;
    5) echo "     the standard output took only a first part of the text: is the disk full, or a pipe closed?" ;;
    6) explain_folder "$@" ;;
    7)
      case "${1-}" in
        inspect) echo "     memory was refused; an area is read whole, up to 1 GiB of it" ;;
        *) echo "     memory was refused; a run takes up to 2 GiB for its volumes and areas, and its report" ;;
      esac
      ;;
    8) echo "     a scenario has 16,777,216 bytes at most, an area 1,074,806,784" ;;
    9) explain_area ;;
    134)
      [ -z "$slow" ] || [ "$(ulimit -v)" = unlimited ] ||
        echo "     a slow build reserves more addresses than \`ulimit -v\` allows here; without that limit it runs, and so does what ./prove builds"
      ;;
  esac
}
