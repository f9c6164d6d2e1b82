"""A provider of OpenID Connect on loopback, with a key of its own: whoever comes is the person of `claims` and comes back at once.
It checks what a provider checks: the redirect address, the client's secret, the code once, and the verifier (RFC 7636). Whose browser it
knows it asks for no password, unless `prompt` or `max_age` demand it (OpenID Connect Core 1.0 section 3.1.2.1)."""

from __future__ import annotations

import base64
import hashlib
import http.server
import json
import secrets
import threading
import time
import urllib.parse
from typing import Any

from authlib.jose import JsonWebKey, jwt

CLIENT, SECRET = "portal", "the secret of the client"


class Provider(http.server.ThreadingHTTPServer):
    """`claims`: of who signs in, beside those of the protocol; `changed`: what it says wrongly in a token; `key`: that it signs
    with; `header`: of its tokens; `asked`: how often it asked for the password; `logged_in`: when it did last."""

    def __init__(self) -> None:
        super().__init__(("127.0.0.1", 0), Answers)
        self.issuer = f"http://127.0.0.1:{self.server_port}"
        self.key = self.published = JsonWebKey.generate_key("RSA", 2048, {"kid": "one"}, is_private=True)
        self.claims: dict[str, Any] = {}
        self.changed: dict[str, Any] = {}
        self.about: dict[str, Any] = {}
        self.header = {"alg": "RS256", "kid": "one"}
        self.codes: dict[str, dict[str, str]] = {}
        self.used: list[str] = []
        self.error = ""
        self.asked, self.logged_in = 0, int(time.time()) - 3600
        threading.Thread(target=self.serve_forever, daemon=True).start()

    def description(self) -> dict[str, Any]:
        """What it says of itself (OpenID Connect Discovery 1.0 section 3)."""
        return {"issuer": self.issuer, "authorization_endpoint": f"{self.issuer}/authorize", "token_endpoint": f"{self.issuer}/token",
                "jwks_uri": f"{self.issuer}/keys", "response_types_supported": ["code"], "subject_types_supported": ["public"],
                "id_token_signing_alg_values_supported": ["RS256"], **self.about}

    def authorize(self, query: dict[str, str]) -> str:
        """Where the browser goes back to."""
        if self.error:
            return f"{query['redirect_uri']}?{urllib.parse.urlencode({'error': self.error, 'state': query['state']})}"
        now, code = int(time.time()), secrets.token_urlsafe(16)
        if "login" in query.get("prompt", "").split() or now - self.logged_in > int(query.get("max_age", now)):
            self.asked, self.logged_in = self.asked + 1, now
        self.codes[code] = query
        return f"{query['redirect_uri']}?{urllib.parse.urlencode({'code': code, 'state': query['state']})}"

    def token(self, form: dict[str, str], authorization: str) -> tuple[int, dict[str, Any]]:
        """The answer to a code (RFC 6749 section 4.1.3)."""
        words = base64.b64encode(f"{CLIENT}:{SECRET}".encode()).decode()
        asked = self.codes.pop(form.get("code", ""), None)
        challenge = base64.urlsafe_b64encode(hashlib.sha256(form.get("code_verifier", "").encode()).digest()).rstrip(b"=").decode()
        if asked is None or authorization != f"Basic {words}" or (asked["code_challenge_method"], asked["code_challenge"]) != ("S256", challenge) \
                or asked["redirect_uri"] != form.get("redirect_uri"):
            return 400, {"error": "invalid_grant"}
        self.used.append(form["code"])
        now = int(time.time())
        claims = {"iss": self.issuer, "aud": CLIENT, "sub": "7", "iat": now, "exp": now + 300, "nonce": asked["nonce"],
                  "auth_time": self.logged_in if "max_age" in asked else None, **self.claims, **self.changed}
        signed = jwt.encode(self.header, {name: value for name, value in claims.items() if value is not None}, self.key)
        return 200, {"access_token": "a", "token_type": "Bearer", "id_token": signed.decode()}


class Answers(http.server.BaseHTTPRequestHandler):
    """What it answers."""
    server: Provider

    def say(self, status: int, found: dict[str, Any]) -> None:
        data = json.dumps(found).encode()
        self.send_response(status)
        self.send_header("Content-Type", "application/json")
        self.send_header("Content-Length", str(len(data)))
        self.end_headers()
        self.wfile.write(data)

    def do_GET(self) -> None:
        path, _, query = self.path.partition("?")
        if path == "/authorize":
            self.send_response(302)
            self.send_header("Location", self.server.authorize(dict(urllib.parse.parse_qsl(query))))
            self.send_header("Content-Length", "0")
            self.end_headers()
        elif path == "/keys":
            self.say(200, {"keys": [self.server.published.as_dict(add_kid=True)]})
        elif path == "/.well-known/openid-configuration":
            self.say(200, self.server.description())
        else:
            self.say(404, {})

    def do_POST(self) -> None:
        body = self.rfile.read(int(self.headers["Content-Length"])).decode()
        self.say(*self.server.token(dict(urllib.parse.parse_qsl(body)), self.headers.get("Authorization", "")))

    def log_message(self, *_: object) -> None:
        """Says nothing."""
