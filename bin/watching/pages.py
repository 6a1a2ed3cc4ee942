"""The pages of processes: each is asked for its state, all at the same time."""
import http.client
import json
import re
import threading
import time

# A page answers at once or not at all: the process waits for nobody.
SECONDS = 1.0
MOST_BYTES = 4_000_000
ADDRESS = re.compile(r"(\[[0-9a-fA-F:.]+\]|[0-9.]+):([0-9]{1,5})")


class Answer:
    """What one page said: its state as JSON has it, or why there is none."""

    def __init__(self, address):
        self.address, self.said, self.why, self.since = address, None, "not asked yet", None


def asked(host, port):
    """The state that a page shows; raises OSError or ValueError where there is none."""
    link = http.client.HTTPConnection(host, port, timeout=SECONDS)
    try:
        link.request("GET", "/state")
        answer = link.getresponse()
        body = answer.read(MOST_BYTES)
        if answer.status != 200:
            raise ValueError(f"status {answer.status}")
        said = json.loads(body)
    except http.client.HTTPException as error:
        raise ValueError("no HTTP") from error
    except json.JSONDecodeError as error:
        raise ValueError("no page of fabricd") from error
    finally:
        link.close()
    if not isinstance(said, dict) or not ("node" in said or "arbiter" in said):
        raise ValueError("no page of fabricd")
    return said


class Pages:
    """All pages, and since when one has not answered."""

    def __init__(self, addresses):
        self.bad, self.places, self.silent = None, [], {}
        for text in addresses:
            found = ADDRESS.fullmatch(text)
            if not found or not 1 <= int(found[2]) <= 65535:
                self.bad = self.bad or text
                continue
            self.places.append((text, found[1].strip("[]"), int(found[2])))

    def ask(self):
        """Asks all of them, and returns an answer of each, in their order."""
        answers = [Answer(text) for text, _, _ in self.places]
        threads = [
            threading.Thread(target=self.fill, args=(answer, host, port), daemon=True)
            for answer, (_, host, port) in zip(answers, self.places)
        ]
        for one in threads:
            one.start()
        for one in threads:
            one.join(2 * SECONDS)
        now = time.monotonic()
        for one in answers:
            if one.said:
                self.silent.pop(one.address, None)
            else:
                one.since = now - self.silent.setdefault(one.address, now)
        return answers

    @staticmethod
    def fill(answer, host, port):
        try:
            answer.said = asked(host, port)
        except ConnectionRefusedError:
            answer.why = "nobody listens"
        except TimeoutError:
            answer.why = "no answer"
        except (OSError, ValueError) as error:
            answer.why = str(error) or type(error).__name__
