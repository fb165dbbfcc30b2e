# The report of a standard from each office of a region, side by side:  sh region.sh STANDARD YEAR FOLDER < offices
# A line of the input is the folder of an office on this machine, or HOST:FOLDER on another one, which `ssh` reaches
# without a password. FOLDER is made: it has a text for each office, and one with what went wrong there.
# A line is printed for each office that did not answer, and then it ends with 123.
export standard="$1" year="$2" to="$3"
mkdir "$to" || exit 1
xargs -P "${AT_ONCE:-8}" -I OFFICE sh -c '
  name=$(echo "$1" | tr -c "A-Za-z0-9.\n" _)
  case $1 in
    *:*) ${SSH:-ssh} -n "${1%%:*}" "cd ${1#*:} && airdv report $standard $year" ;;
    *) cd "$1" && airdv report "$standard" "$year" ;;
  esac > "$to/$name.txt" 2> "$to/$name.wrong" || { echo "$1: status $?"; exit 1; }
' sh OFFICE
