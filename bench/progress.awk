# What `rt all check` and `rt run` say, as a line a crate, and all that isn't well.
/^== summary/ { summary = 1; next }
summary && / ok$/ && NF == 2 { if (!($1 in said)) print $1, "proved before"; next }
summary && /: / { print; next }
/^== / { name = $2 ":"; next }
/^logic=proved / {
  count = $0
  sub(/.*functions=/, "", count)
  sub(/ .*/, "", count)
  if (!name) name = "the program:"
  print name, "proved,", count, "functions"
  said[name]
  fflush()
  next
}
/(^|[ :])error(:|\[)|not proved|no proof|was killed|did not build|waiting for/ { print; fflush() }
