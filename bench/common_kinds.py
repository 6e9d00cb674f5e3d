"""Generates JSON texts of three kinds that comparisons of JSON libraries often have. The contents are made up.

Each function has a random generator and a size as parameters, and returns a text in proportion to the size: at
10,000,000 about 2.0, 1.1 and 0.6 MB.
"""

import json
import math


def coordinates(rng, size):
    """Returns a map without white space: polygons whose points have 15 to 17 digits each."""
    features, points = [], size // 194
    while points > 0:
        ring = ",".join(border(rng, min(points, rng.randrange(40, 4000))))
        points -= ring.count("],[") + 1
        features.append('{"type":"Feature","properties":{"name":"area %d"},"geometry":{"type":"Polygon","coordinates":[[%s]]}}' % (len(features), ring))
    return '{"type":"FeatureCollection","features":[' + ",".join(features) + "]}\n"


def border(rng, count):
    """Returns points on a rough circle."""
    east, north, radius = rng.uniform(-140, -50), rng.uniform(42, 83), rng.uniform(0.01, 2)
    for step in range(count):
        angle = 2 * math.pi * step / count
        distance = radius * rng.uniform(0.9, 1.1)
        yield "[%s,%s]" % (digits(rng, east + distance * math.cos(angle)), digits(rng, north + distance * math.sin(angle)))


def digits(rng, number):
    return f"{number:.{rng.choice([15, 16, 17])}g}"


def catalogue(rng, size):
    """Returns a catalogue of performances, pretty printed: nine-digit ids that often repeat, as keys and as values, and many nulls."""
    count = size // 35_400
    areas, seats, topics = (ids(rng, how_many) for how_many in (17, 64, 40))
    works = ids(rng, count // 6 + 1)
    value = {
        "areaNames": {str(area): f"Balcony {number}" for number, area in enumerate(areas)},
        "seatNames": {str(seat): f"Row {number}" for number, seat in enumerate(seats)},
        "works": {str(work): work_of(rng, work, topics) for work in works},
        "performances": [performance(rng, work, areas, seats) for work in rng.choices(works, k=count)],
    }
    return json.dumps(value, indent=4) + "\n"


def ids(rng, count):
    return rng.sample(range(100_000_000, 400_000_000), count)


def work_of(rng, work, topics):
    return {
        "description": None,
        "id": work,
        "logo": rng.choice([None, f"/images/{work}/logo.png"]),
        "name": f"Evening {rng.randrange(1000)} of the season",
        "subTopicIds": rng.sample(topics, 4),
        "subjectCode": None,
        "subtitle": None,
        "topicIds": rng.sample(topics, 2),
    }


def performance(rng, work, areas, seats):
    kinds = rng.sample(seats, rng.randrange(1, 5))
    return {
        "workId": work,
        "id": rng.randrange(100_000_000, 400_000_000),
        "logo": None,
        "name": None,
        "prices": [{"amount": rng.randrange(100, 2000) * 50, "audienceId": 337_100_890, "seatId": seat} for seat in kinds],
        "seatKinds": [
            {"areas": [{"areaId": area, "blockIds": []} for area in rng.sample(areas, rng.randrange(1, 15))], "seatId": seat} for seat in kinds
        ],
        "seatMapImage": None,
        "start": 1_372_701_600_000 + rng.randrange(10_000) * 900_000,
        "venueCode": "GREAT_HALL",
    }


SYLLABLES = "あいうえおかきくけこさしすせそたちつてとなにぬねのはひふへほまみむめもやゆよらりるれろわをん東京大阪日本語今日明日天気電車時間花火"


def messages(rng, size):
    """Returns a stream of messages in Japanese, pretty printed: the same keys in each message, links, and some texts
    from earlier messages."""
    people = [person(rng) for _ in range(40)]
    found = []
    for _ in range(size // 40_000):
        message = message_of(rng, rng.choice(people))
        if found and rng.randrange(3) == 0:
            message["shared"] = {key: value for key, value in rng.choice(found).items() if key != "shared"}
        found.append(message)
    return json.dumps({"messages": found, "next": None}, indent=2, ensure_ascii=False) + "\n"


def sentence(rng, most):
    return "".join(rng.choice(SYLLABLES) for _ in range(rng.randrange(2, most)))


def message_of(rng, user):
    number = rng.randrange(10**17, 10**18)
    return {
        "created_at": f"Sun Aug 31 00:{rng.randrange(60):02}:{rng.randrange(60):02} +0000 2014",
        "id": number,
        "id_str": str(number),
        "text": "\n".join(sentence(rng, 50) for _ in range(rng.randrange(1, 4))),
        "source": '<a href="http://example.org/client" rel="nofollow">Client for telephones</a>',
        "truncated": False,
        "in_reply_to": rng.choice([None, None, rng.randrange(10**17, 10**18)]),
        "user": user,
        "place": None,
        "shared_count": rng.randrange(100),
        "favorite_count": rng.randrange(10),
        "entities": {"hashtags": [], "symbols": [], "links": [link(rng) for _ in range(rng.randrange(3))], "mentions": []},
        "favorited": False,
        "lang": "ja",
    }


def link(rng):
    start = rng.randrange(100)
    return {"url": f"http://example.org/{rng.randrange(10**9)}", "indices": [start, start + 22]}


def person(rng):
    number = rng.randrange(10**9)
    return {
        "id": number,
        "id_str": str(number),
        "name": sentence(rng, 12),
        "screen_name": f"person_{number}",
        "location": sentence(rng, 8),
        "description": sentence(rng, 120),
        "url": None,
        "protected": False,
        "followers_count": rng.randrange(5000),
        "friends_count": rng.randrange(5000),
        "created_at": f"Mon Jan {rng.randrange(1, 31):02} 12:00:00 +0000 2012",
        "utc_offset": None,
        "time_zone": None,
        "geo_enabled": True,
        "verified": False,
        "statuses_count": rng.randrange(100_000),
        "lang": "ja",
        "background_color": "C0DEED",
        "background_image": f"http://example.org/images/{number}/background.png",
        "image": f"http://example.org/images/{number}/normal.png",
        "default_profile": rng.choice([True, False]),
        "following": False,
    }
