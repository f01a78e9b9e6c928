# All lists of the fleet of examples/ in a file: `bash lists.sh FILE`.
for tail in D-EABC D-ELMN D-GXYZ; do
  office life "$1" "$tail"
  for day in 2024-04-07 2024-05-15; do
    office due "$1" "$tail" "$day"
    office limits "$1" "$tail" "$day"
    office forecast "$1" "$tail" "$day" 365 45 2
  done
done
