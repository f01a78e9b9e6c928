# The objects of commands, as the page on limits enters them.
aircraft() { # DOC TAIL
  echo "{\"do\":\"add-aircraft\",\"doc\":\"$1\",\"tail\":\"$2\",\"kind\":\"C172\",\"birth\":\"1990-01-01\",\"minutes\":600,\"cycles\":10,\"as_of\":\"2023-01-01T00:00\",\"positions\":[]}"
}
defer() { # DOC TAIL MOMENT CATEGORY, with its days where it is A
  echo "{\"do\":\"defer\",\"doc\":\"$1\",\"tail\":\"$2\",\"moment\":\"$3\",\"reference\":\"21-31-01\",\"category\":$4}"
}
extend() { # DOC DEFECT DAY DAYS
  echo "{\"do\":\"extend\",\"doc\":\"$1\",\"defect\":\"$2\",\"day\":\"$3\",\"days\":$4}"
}
rectify() { # DOC TAIL MOMENT LINES
  echo "{\"do\":\"release\",\"doc\":\"$1\",\"tail\":\"$2\",\"moment\":\"$3\",\"lines\":[$4]}"
}
