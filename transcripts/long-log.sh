# A list of commands: an aircraft, two components or as many as it is told, and the sectors of 13 days or as many, ten a day, of half
# an hour each.
echo '[{"do":"add-aircraft","doc":"A1","tail":"D-ABCD","kind":"C172","birth":"2000-01-01","minutes":60000,"cycles":800,"as_of":"2024-01-01T00:00","positions":[{"position":"ENG","part":"IO360"}]}'
for number in $(seq "${1:-2}"); do
  echo ",{\"do\":\"add-component\",\"doc\":\"C$number\",\"serial\":\"E$number\",\"part\":\"IO360\",\"birth\":\"2010-01-01\",\"minutes\":1000,\"cycles\":100,\"as_of\":\"2024-01-01T00:00\"}"
done
for page in $(seq "${2:-13}"); do
  for line in $(seq 10); do
    printf ',{"do":"sector","tail":"D-ABCD","page":%d,"line":%d,"off":"2024-01-%02dT%02d:00","on":"2024-01-%02dT%02d:30","cycles":1}\n' "$page" "$line" "$page" $((line + 7)) "$page" $((line + 7))
  done
done
echo ']'
