# The office of a running `airdv serve` as text:  sh as-text.sh PORT FOLDER
# It makes FOLDER/records.txt with the agency's records, and in FOLDER/lines a file for each site, parameter and
# year, from the first sample of a monitor to its last. It ends with 1 if FOLDER is there, or at the first
# question that is not answered.
at=http://127.0.0.1:$1
mkdir "$2" "$2/lines" || exit 1
curl -sf "$at/records" > "$2/records.txt" || exit 1
curl -sf "$at/sites" > "$2/sites" || exit 1
for site in $(grep -o '[0-9]*-[0-9]*-[0-9]*' "$2/sites"); do
  curl -sf "$at/monitors/$site" > "$2/monitors" || exit 1
  # A monitor with samples is a row such as ["88101",1,7,"Y",185,"2022-01-03","2025-01-03"].
  grep -o '"[0-9]*",[0-9]*,[17],"[YN]",[0-9]*,"[^]]*' "$2/monitors" | tr '",-' ' ' |
    while read -r parameter poc duration eligible samples first month day last rest; do
      for year in $(seq "$first" "$last"); do
        curl -sf "$at/lines/$site/$parameter/$year" > "$2/lines/$site-$parameter-$year.txt" || exit 1
      done
    done || exit 1
done
rm -f "$2/sites" "$2/monitors"
