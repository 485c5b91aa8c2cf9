# awk -v directory=D -f to-text.awk SCRIPT: each table of a script as a text for `vempaldi make`, D/0.txt, D/1.txt and so on.
BEGIN { split("+ - * / neg", operations); tables = 0; begin() }

function begin() { text = directory "/" tables ".txt"; arrays = 0 }
function reference(array, offset) { return "A" array "[i" (offset < 0 ? offset : offset > 0 ? "+" offset : "") "]" }

$1 == "array" { print "array A" arrays++, $2 > text }
$1 == "loop" { print "loop", $2, $3, "->", reference($4, $5) ":" > text }
$1 == "statement" { print "->", reference($2, $3) ":" > text }
$1 == "read" { print reference($2, $3) > text }
$1 == "constant" { print $2 > text }
$1 == "operation" { print operations[$2] > text }
$1 == "end" { close(text); tables++; begin() }
