# Listings behind lines `packet NUMBER` as JSON: an object with the text of each, with addresses as in RFC 5952.
function tell() { if (text != "") { printf "%s\"%s\":\"%s\"", (told++ ? ",\n" : "{"), number, text; text = "" } }
$1 == "packet" { tell(); number = $2; next }
$1 ~ /^(source|destination|route|home|alternate)$/ && is_digits($2, 32) { $2 = familiar($2) }
{ text = text (text == "" ? "" : "\\n") $0 }
END { tell(); print told ? "}" : "{}" }
