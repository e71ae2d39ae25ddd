"""Identifiers, STIX objects and bundles of the tests. A function that gives a text gives it in canonical form."""

import json
import re

COLLECTION = "91a7b528-80eb-42ed-a74d-c6fbd5a26116"
ROOT = "/api/"
OBJECTS = f"{ROOT}collections/{COLLECTION}/objects/"
CREATED = "2021-06-10T00:00:00.000Z"


def uuid(number):
    return f"00000000-0000-4000-8000-{int(number):012d}"


def number_of(item):
    """The number in the identifier of an object."""
    return int(item["id"][-12:])


def compact(value):
    return json.dumps(value, separators=(",", ":"), ensure_ascii=False)


def canonical(text):
    """A JSON text with its fields in order and without spaces."""
    return json.dumps(json.loads(text), separators=(",", ":"), sort_keys=True, ensure_ascii=False)


def moment(seconds):
    """The time of so many seconds, a text with perhaps a fraction, after 2021-06-10T00:00:00Z."""
    whole, _, fraction = seconds.partition(".")
    whole = int(whole)
    return f"2021-06-10T{whole // 3600:02}:{whole // 60 % 60:02}:{whole % 60:02}{'.' + fraction if fraction else ''}Z"


def brackets(pattern):
    """The pattern, in which A to D, each alone, are replaced by the brackets of the logins a to d."""
    return re.sub(r"(?<![^( ])([A-D])(?![^) ])", lambda it: f"[user-account:account_login = '{it[1].lower()}']", pattern)


def bundle(objects):
    """A bundle, on one line; without objects it has no field of them."""
    listed = {"objects": objects} if objects else {}
    return compact({"type": "bundle", "id": f"bundle--{uuid(1)}", **listed}) + "\n"


def observed_data(first, last, refs, number=1):
    return {
        "type": "observed-data", "spec_version": "2.1", "id": f"observed-data--{uuid(number)}", "created": CREATED, "modified": CREATED,
        "first_observed": first, "last_observed": last, "number_observed": 1, "object_refs": refs,
    }


def account(login, number=1):
    return {"type": "user-account", "id": f"user-account--{uuid(number)}", "account_login": login}


def login(event):
    """The bundle of an event NAME@SECOND or NAME@FIRST..LAST: the account NAME is observed then."""
    name, span = event.split("@")
    first, _, last = span.partition("..")
    user = account(name)
    return bundle([observed_data(moment(first), moment(last or first), [user["id"]]), user])


def indicator(number, pattern, **more):
    """An indicator as a dictionary; `more` holds further fields, or others in place of the usual ones."""
    return {
        "type": "indicator", "id": f"indicator--{uuid(number)}", "spec_version": "2.1", "created": CREATED, "modified": CREATED,
        "pattern": pattern, "pattern_type": "stix", "valid_from": "2021-06-10T00:00:00Z", **more,
    }


def sighting(number, count, first, last, created, modified):
    return {
        "count": int(count), "created": created, "first_seen": first, "id": f"sighting--{uuid(number)}", "last_seen": last,
        "modified": modified, "sighting_of_ref": f"indicator--{uuid(number)}", "spec_version": "2.1", "type": "sighting",
    }


def identity(number, name="N", modified=CREATED):
    return compact({
        "created": CREATED, "id": f"identity--{uuid(number)}", "modified": modified, "name": name, "spec_version": "2.1", "type": "identity",
    })


def large_identity(number):
    return identity(number, "N" * 1000)


def envelope(entries):
    """A TAXII envelope of these texts."""
    return '{"objects":[' + ",".join(entries) + "]}"
