"""One end of the protocol: requests are answered once each, in whatever order; notifications are never answered."""
from __future__ import annotations

import sys
import traceback
from typing import Any, BinaryIO, Callable, Mapping

from ..program import SetupFault
from .framing import Code, Fault, framed, framed_answer

Params = dict[str, Any]


class Later:
    """What a method gives whose answer isn't known yet; `answer` and `fail` of the endpoint give it."""


LATER = Later()
Method = Callable[[Params, Any], Any]


class Endpoint:
    """Hands requests and notifications to methods by their names."""

    def __init__(self, stream: BinaryIO, methods: Mapping[str, Method]) -> None:
        self.stream = stream
        self.methods = methods
        # Requests that wait for their answers, and those that were cancelled before they were looked at.
        self.open: set[Any] = set()
        self.cancelled: set[Any] = set()
        self.is_initialized = self.is_shut = False
        # Requests to the other end, of which each has a number, and who takes what they are answered with.
        self.asked: dict[str, Callable[[Any], None]] = {}
        self.numbers = 0

    def send(self, message: dict[str, Any]) -> None:
        """Writes a message."""
        self.write(framed(message))

    def write(self, data: bytes) -> None:
        """Writes what is a message."""
        self.stream.write(data)
        self.stream.flush()

    def notify(self, method: str, params: Params) -> None:
        """Tells the other end something."""
        self.send({"method": method, "params": params})

    def ask(self, method: str, params: Params, take: Callable[[Any], None]) -> None:
        """Asks the other end; `take` is given the result, or None where there is a fault."""
        self.numbers += 1
        number = f"tekhvumo {self.numbers}"
        self.asked[number] = take
        self.send({"id": number, "method": method, "params": params})

    def answer(self, number: Any, result: Any) -> None:
        """Answers a request that is still open."""
        if number in self.open:
            self.open.discard(number)
            self.send({"id": number, "result": result})

    def answer_json(self, number: Any, result: bytes) -> None:
        """Answers a request that is still open with a result that is JSON already."""
        if number in self.open:
            self.open.discard(number)
            self.write(framed_answer(number, result))

    def fail(self, number: Any, code: Code, message: str) -> None:
        """Answers a request that is still open with a fault."""
        if number in self.open:
            self.open.discard(number)
            self.send({"id": number, "error": {"code": int(code), "message": message}})

    def noticed(self, message: Any) -> None:
        """What is looked at as soon as it is heard: a request that waits to be looked at may be cancelled."""
        if isinstance(message, dict) and message.get("method") == "$/cancelRequest":
            params = message.get("params")
            number = params.get("id") if isinstance(params, dict) else None
            if isinstance(number, (int, str)):
                self.cancelled.add(number)

    def take(self, message: Any) -> None:
        """Answers a message, or does what it tells."""
        if isinstance(message, Fault):
            self.send({"id": None, "error": {"code": int(message.code), "message": message.message}})
            return
        number = message.get("id") if isinstance(message, dict) else None
        if not isinstance(message, dict) or not isinstance(number, (int, str, type(None))):
            self.send({"id": None, "error": {"code": int(Code.INVALID_REQUEST), "message": "no message is this"}})
            return
        method = message.get("method")
        if not isinstance(method, str):
            if "result" not in message and "error" not in message:
                error = {"code": int(Code.INVALID_REQUEST), "message": "a message without a method"}
                self.send({"id": number, "error": error})
            elif isinstance(number, str) and number in self.asked:
                self.asked.pop(number)(message.get("result"))
            return
        params = message.get("params")
        if "id" in message:
            self.request(number, method, params if isinstance(params, dict) else {})
        else:
            self.notification(method, params if isinstance(params, dict) else {})

    def request(self, number: Any, method: str, params: Params) -> None:
        """Answers a request, unless its answer comes later."""
        self.open.add(number)
        try:
            self.check_state(method)
            if number in self.cancelled:
                raise Fault(Code.CANCELLED, "cancelled")
            if method not in self.methods:
                raise Fault(Code.NO_METHOD, f"there is no method {method}")
            result = self.methods[method](params, number)
        except Fault as fault:
            self.fail(number, fault.code, fault.message)
        except (KeyError, TypeError, ValueError, AttributeError, IndexError) as trouble:
            traceback.print_exc(file=sys.stderr)
            self.fail(number, Code.INVALID_PARAMS, f"{type(trouble).__name__}: {trouble}")
        except Exception as trouble:
            traceback.print_exc(file=sys.stderr)
            self.fail(number, Code.INTERNAL, f"{type(trouble).__name__}: {trouble}")
        else:
            if not isinstance(result, Later):
                self.answer(number, result)
        self.cancelled.discard(number)

    def check_state(self, method: str) -> None:
        """Refuses what comes before the beginning or behind the end."""
        if self.is_shut:
            raise Fault(Code.INVALID_REQUEST, "the server is shut down")
        if not self.is_initialized and method != "initialize":
            raise Fault(Code.NOT_INITIALIZED, "the first request is `initialize`")
        if self.is_initialized and method == "initialize":
            raise Fault(Code.INVALID_REQUEST, "the server is initialized")

    def notification(self, method: str, params: Params) -> None:
        """Does what is told; what isn't known, or comes too early, is passed over."""
        if method == "$/cancelRequest":
            number = params.get("id")
            if isinstance(number, (int, str)):
                self.cancelled.discard(number)
                self.fail(number, Code.CANCELLED, "cancelled")
        elif method in self.methods and (self.is_initialized or method == "exit"):
            try:
                self.methods[method](params, None)
            except Fault as fault:
                print(f"tekhvumo: {method}: {fault.message}", file=sys.stderr)
            except SetupFault as trouble:
                self.notify("window/showMessage", {"type": 1, "message": f"tekhvumo: {trouble}"})
            except Exception:
                # (nobody waits for an answer that could tell it)
                traceback.print_exc(file=sys.stderr)
