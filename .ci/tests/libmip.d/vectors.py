"""The keyed values of the files of test vectors that are named, through mip.py; the last line says how many were compared."""
import json
import sys

import mip

compared = 0


def compare(what, ours, theirs):
    global compared
    compared += 1
    if ours.hex() != theirs:
        sys.exit(f"libmip: {what} is {ours.hex()} and not {theirs}")


data = bytes.fromhex
for name in sys.argv[1:]:
    with open(name, encoding="utf-8") as it:
        vectors = json.load(it)
    for test in vectors["tests"]:
        token = mip.home_token if test["test"] == "home" else mip.careof_token
        compare(f"a {test['test']} token", token(data(test["kcn"]), data(test["address"]), data(test["nonce"])), test["token"])
    for update in vectors["updates"]:
        key = mip.kbm(*(data(it) for it in update["tokens"] if it and it != "-"))
        message, places = data(update["message"]), (data(update["careof_or_home"]), data(update["correspondent"]))
        compare("a key", key, update["kbm"])
        compare("an authenticator", mip.authenticator(key, *places, message), update["authenticator"])
        spoiled = message[:-1] + bytes([message[-1] ^ 1])
        if not mip.is_authentic(key, *places, message) or mip.is_authentic(key, *places, spoiled):
            sys.exit("libmip: a message is authentic that is not, or the other way round")
print(f"{compared} keyed values are those of the test vectors")
