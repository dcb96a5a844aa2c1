# Whether the file is a trace: prints nothing and ends with 0, or prints its first fault and ends with 1.
function fault(what) { print "line " NR ": " what ": " $0; bad = 1; exit 1 }
function number(text) { return text ~ /^(0|[1-9][0-9]*)$/ && length(text) <= 20 }
NR == 1 {
    if ($0 != "ptmtrace 1" && $0 != "ptmtrace 2") fault("Header")
    most = $2 == 2 ? 4294967295 : 65535
    next
}
/^ | $|  / { fault("Fields") }
!number($1) || $1 > 63 { fault("Thread") }
ended[$1] { fault("Ended") }
{ fields = index("x", $2) ? 2 : index("f", $2) ? 3 : index("mrpt", $2) ? 4 : index("ca", $2) ? 5 : 0 }
!fields { fault("Command") }
NF != fields { fault("Fields") }
{ for (i = 3; i <= NF; i++) if (!number($i)) fault("Number") }
$2 == "x" { if ($1 == 0) fault("MainExit"); ended[$1] = 1; next }
$3 < 1 || $3 > most { fault("Name") }
($2 == "p" || $2 == "t") && $4 > 65535 { fault("Tray") }
{ held = ($1, $3) in holds; makes = index("mcat", $2) > 0 }
makes && held { fault("Held") }
!makes && !held { fault("NotHeld") }
$2 == "p" { if ($4 in posted) fault("TrayTwice"); posted[$4] = 1 }
$2 == "t" { if ($4 in taken) fault("TrayTwice"); taken[$4] = 1 }
makes { holds[$1, $3] = 1; next }
$2 == "f" || $2 == "p" || ($2 == "r" && $4 == "0") { delete holds[$1, $3] }
END { if (!bad && NR == 0) { print "line 1: Cut"; exit 1 } exit bad }
