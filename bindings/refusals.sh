#!/bin/sh
# Writes what refusals.txt says into the C header, the Rust crate and docs/PLANNER.md.
#     bindings/refusals.sh            writes the three
#     bindings/refusals.sh --check    writes nothing, and fails where one is not as it would be written
set -eu
cd "$(dirname "$0")"
new=$(mktemp -d)
trap 'rm -rf "$new"' EXIT
behind=0

# Every row as number|NAME|meaning|asked by|meaning with its place|place|second, without the spaces around the bars; the last three are
# empty where a number has no place.
grep -v '^#' refusals.txt | sed 's/ *| */|/g; s/ *$//' | awk '
  /^\|/ { row = row $0; next }
  NR > 1 { print row }
  { row = $0 }
  END { print row }' > "$new/rows"

# The enum, zul_meaning and zul_pattern.
c_part() {
  awk -F'|' '
    $1 == "*" { other = $3; next }
    {
      name = ($1 == 0 ? "ZUL_OK" : "ZUL_REFUSED_" $2); names[++k] = name; numbers[k] = $1; meanings[k] = $3
      gsub(/[{](place|second)[}]/, "#", $5); gsub(/µ/, "\\u00b5", $5); placed[k] = $5
    }
    END {
      print "typedef enum {"
      for (i = 1; i <= k; i++) printf "    %-29s = %2d%s /* %s */\n", names[i], numbers[i], (i < k ? "," : " "), meanings[i]
      print "} zul_refusal;\n"
      print "/* What a number means, as one line of text. It stands here and not in the archive, which holds proved code alone. */"
      print "static inline const char *zul_meaning(uint32_t number) {\n    switch (number) {"
      for (i = 1; i <= k; i++) printf "        case %s: return \"%s\";\n", names[i], meanings[i]
      printf "        default: return \"%s\";\n    }\n}\n\n", other
      print "/* The same with a # where its place stands, and where the second number does. */"
      print "static inline const char *zul_pattern(uint32_t number) {\n    switch (number) {"
      for (i = 1; i <= k; i++) if (placed[i]) printf "        case %s: return \"%s\";\n", names[i], placed[i]
      print "        default: return zul_meaning(number);\n    }\n}"
    }' "$new/rows"
}

# The enum of reasons, its way from the number, its meanings and what it says of a place.
rust_file() {
  awk -F'|' '
    function camel(name,   parts, i, out) {
      for (i = 1; i <= split(name, parts, "_"); i++) out = out substr(parts[i], 1, 1) tolower(substr(parts[i], 2))
      return out
    }
    $1 == "0" { next }
    { k++; numbers[k] = ($1 == "*" ? "_" : $1); names[k] = camel($2); meanings[k] = $3; placed[k] = $5 }
    END {
      print "//! Why an input was refused. Written by `bindings/refusals.sh` from `bindings/refusals.txt`; edit that file.\n\nuse core::fmt;\n"
      print "/// Why an input was refused, one case for each number of the table (`docs/PLANNER.md`, \"Numbers of refusal\")."
      print "#[derive(Clone, Copy, PartialEq, Eq, Hash, Debug)]\n#[non_exhaustive]\npub enum Reason {"
      for (i = 1; i <= k; i++) printf "    /// %s: %s.\n    %s,\n", (numbers[i] == "_" ? "Any other number" : numbers[i]), meanings[i], names[i]
      print "}\n\nimpl Reason {\n    /// The reason with this number of the table.\n    #[must_use]\n    pub const fn from_number(number: u32) -> Self {\n        match number {"
      for (i = 1; i <= k; i++) printf "            %s => Self::%s,\n", numbers[i], names[i]
      print "        }\n    }\n\n    /// What it means, as one line of text.\n    #[must_use]\n    pub const fn meaning(self) -> &\047static str {\n        match self {"
      for (i = 1; i <= k; i++) printf "            Self::%s => \"%s\",\n", names[i], meanings[i]
      print "        }\n    }\n\n    /// The meaning with its place in words, where it has one."
      print "    pub(crate) fn say(self, place: u32, second: u32, f: &mut fmt::Formatter<\047_>) -> fmt::Result {\n        match self {"
      for (i = 1; i <= k; i++) if (placed[i]) printf "            Self::%s => write!(f, \"%s\"),\n", names[i], placed[i]
      print "            _ => f.write_str(self.meaning()),\n        }\n    }\n}"
    }' "$new/rows"
}

docs_part() {
  printf '\n| No. | Exactly when | Place | Second | Asked by |\n|---|---|---|---|---|\n'
  awk -F'|' '
    function or_0(words) { return words == "" || words == "-" ? 0 : words }
    $1 > 0 { printf "| %d | %s | %s | %s | %s |\n", $1, $3, or_0($6), or_0($7), $4 }
    END { print "" }' "$new/rows"
}

# Puts a part between the two lines of a file that name this script.
between() { # FILE PART
  for mark in begin end; do
    grep -q "$mark: bindings/refusals.sh" "$1" || { echo "bindings/refusals.sh: ${1#../} has no line '$mark: bindings/refusals.sh'" >&2; exit 1; }
  done
  awk -v part="$2" '
    /begin: bindings\/refusals.sh/ { print; while ((getline line < part) > 0) print line; inside = 1 }
    /end: bindings\/refusals.sh/ { inside = 0 }
    !inside { if ($0 !~ /begin: bindings\/refusals.sh/) print }' "$1"
}

settle() { # FILE NEW
  if cmp -s "$1" "$2"; then return; fi
  if [ "$check" = 1 ]; then
    echo "bindings/refusals.sh: ${1#../} is not as refusals.txt says" >&2
    behind=1
  else
    cp "$2" "$1"
  fi
}

case ${1-} in
  "") check=0 ;;
  --check) check=1 ;;
  *) echo "usage: bindings/refusals.sh [--check]" >&2; exit 2 ;;
esac
c_part > "$new/c"
docs_part > "$new/docs"
between c/zulagbemi.h "$new/c" > "$new/zulagbemi.h"
between ../docs/PLANNER.md "$new/docs" > "$new/PLANNER.md"
rust_file > "$new/reason.rs"
settle c/zulagbemi.h "$new/zulagbemi.h"
settle rust/src/reason.rs "$new/reason.rs"
settle ../docs/PLANNER.md "$new/PLANNER.md"
exit $behind
