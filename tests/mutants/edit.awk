# Applies edits, which are written as the must-fail edits of the crates are: '# NAME: what is wrong', 'file: FILE' (where there is none, the last one holds),
# and pairs 'old: TEXT', 'new: TEXT', with \n for the end of a line. Prints each as a mutant of the kind `hand`, and writes the changed file to OUT/NAME:
# awk -v out=OUT -f edit.awk EDITS. An old text that does not stand in its file just once is named.
BEGIN { OFS = "\t" }
/^# / { title = name = substr($0, 3); sub(/:.*/, "", name); text = "" }
/^file: / { file = substr($0, 7) }
/^(old|new):/ { change = substr($0, 6); gsub(/\\n/, "\n", change) }
/^old:/ {
    old = change
    if (text == "") { print name, "hand", title, file, $0; while ((getline line <file) > 0) text = text line "\n"; close(file) }
    at = index(text, old)
    if (!at || index(substr(text, at + 1), old)) print FILENAME ": " name ": not once in " file ": " $0 >"/dev/stderr"
}
/^new:/ { text = substr(text, 1, at - 1) change substr(text, at + length(old)); printf "%s", text >(out "/" name); close(out "/" name) }
