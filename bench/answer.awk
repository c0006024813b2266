# What a user would write in awk in place of `vanlab answer`: one 997 per functional group, counts and control
# numbers compared, no notes on segments. Run as: mawk -f answer.awk FILE
BEGIN { RS = "~"; FS = "*"; ORS = "~"; OFS = "*" }
{ sub(/^[\r\n]+/, "", $1) }
$1 == "ISA" { isa13 = $14; date = $10; time = $11; asks = $15; groups = 0; tail = "" }
$1 == "GS" { gs01 = $2; gs06 = $7; gs02 = $3; gs03 = $4; body = ""; sets = 0; good = 0; groups++ }
{ segments++ }
$1 == "ST" { segments = 1; st01 = $2; st02 = $3; po1 = 0; third = 0 }
$1 == "PO1" { po1++ }
$1 == "SE" {
    sets++
    code = ""
    if ($3 != st02) code = code "*3"
    if ($2 != segments) code = code "*4"
    if (po1 == 0) code = code "*5"
    body = body "AK2*" st01 "*" st02 "~AK5*" (code == "" ? "A" : "R" code) "~"
    if (code == "") good++
}
$1 == "GE" {
    result = good == sets ? "A" : good == 0 ? "R" : "P"
    tail = tail "ST*997*0001~AK1*" gs01 "*" gs06 "~" body "AK9*" result "*" $2 "*" sets "*" good "~SE*" 2 * sets + 4 "*0001~"
}
$1 == "IEA" {
    number++
    print "ISA*00*          *00*          *ZZ*BETA           *ZZ*ALPHA          *250102*0931*U*00401*" \
        sprintf("%09d", number) "*0*P*:"
    if (asks == "1") print "TA1*" isa13 "*" date "*" time "*A*000"
    printf "GS*FA*%s*%s*20250102*0931*%d*X*004010~%sGE*1*%d~", gs03, gs02, number, tail, number
    print "IEA*1*" sprintf("%09d", number)
}
