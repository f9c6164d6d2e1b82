"""portal-sign-in@.service: the sign-in of a chain by OpenID Connect, for the counters' page.

systemd starts one for each connection to its socket, which the counters' page alone may open. It alone has
the client's secret and a way to the provider, and checks the ID token with authlib: signature, issuer,
audience, end and nonce. A counter's computer is several people's, so the provider is to ask for the password
at each sign-in, and `auth_time` has to say that it did (OpenID Connect Core 1.0 section 3.1.2.1). Which claim
gives which role at which venue stands in its settings.

A question is a JSON object of one connection, up to its end: `ask` is "begin" with `redirect`, or "finish"
with `redirect`, `code`, `nonce`, `verifier`, `begun` and `venue`. The answer is an object: `url`, `state`,
`nonce`, `verifier` and `begun`; or who it is (`SignIn.person`); or `fault` in English.
"""

from __future__ import annotations

import dataclasses
import hashlib
import ipaddress
import json
import pathlib
import secrets
import sys
import time
import tomllib
import urllib.parse
from typing import Any

from portal_field.lib.desk_client import credential
from portal_field.settings.accounts import MANAGER, OFFICE, fault_of_name
from portal_field.venues import one_question
from portal_field.venues.places import BadVenue

FILE = "etc/portal/sign-in.toml"
CREDENTIAL = "sign-in"
ROLES = (MANAGER, OFFICE)
ALL = "*"                   # of `venues`
PATIENCE = 8                # seconds for each request to the provider
LEEWAY = 60                 # seconds by which the provider's clock may differ
MOST = 16_384               # bytes of a question
LONGEST_SUB = 255           # characters, of ASCII (OpenID Connect Core 1.0 section 2)
# Claims that are one person's, and another's once that one has taken it (section 5.7).
PERSONAL = frozenset((
    "email", "family_name", "given_name", "middle_name", "name", "nickname", "phone_number", "picture",
    "preferred_username", "profile", "unique_name", "upn", "website"))
ALGORITHMS = ["RS256", "RS384", "RS512", "PS256", "PS384", "PS512", "ES256", "ES384", "ES512", "EdDSA"]


class BadSignIn(BadVenue):
    """What is wrong with the settings, in English."""


class Fault(Exception):
    """Why nobody is signed in, in English."""


@dataclasses.dataclass(frozen=True)
class Rule:
    """Whose claim has this value has the role at these venues."""
    claim: str
    value: str
    role: str
    venues: list[str]

    def fits(self, claims: dict[str, Any], venue: str) -> bool:
        """Whether it gives its role to these claims at a venue."""
        if self.claim == "email" and claims.get("email_verified") is False:
            return False
        found = claims.get(self.claim)
        has = self.value in found if isinstance(found, list) else found == self.value
        return has and bool({venue, ALL} & set(self.venues))


@dataclasses.dataclass(frozen=True)
class SignIn:
    """The settings of the sign-in."""
    issuer: str
    client_id: str
    client_secret: str = ""
    label: str = ""
    scopes: str = "openid email profile"
    name_claim: str = "email"
    role: list[Rule] = dataclasses.field(default_factory=list)

    @classmethod
    def read(cls, text: str) -> SignIn:
        """The settings in a text. BadSignIn: a line is not valid, unknown or missing."""
        try:
            lines: dict[str, Any] = tomllib.loads(text)
            rules = [Rule(**row) for row in lines.pop("role", [])]
            made = cls(**lines, role=rules)
        except (tomllib.TOMLDecodeError, TypeError, AttributeError) as fault:
            line = str(fault).replace("SignIn.__init__()", "it").replace("Rule.__init__()", "[[role]]")
            raise BadSignIn(line) from fault
        made.check()
        return made

    def check(self) -> None:
        """BadSignIn: a line is not valid."""
        for name, value in vars(self).items():
            if name != "role" and not isinstance(value, str):
                raise BadSignIn(f"{name} is a text")
        parts = urllib.parse.urlsplit(self.issuer)
        if parts.scheme != "https" and not (parts.scheme == "http" and is_loopback(parts.hostname or "")):
            raise BadSignIn("issuer is an address that begins with https://")
        if not self.client_id or not self.role or "openid" not in self.scopes.split():
            raise BadSignIn("it has a client_id, openid in its scopes, and at least one table [[role]]")
        for rule in self.role:
            venues = rule.venues if isinstance(rule.venues, list) else [""]
            texts = [rule.claim, rule.value, rule.role, *venues]
            if not all(isinstance(text, str) and text for text in texts) or rule.role not in ROLES:
                raise BadSignIn("each [[role]] has claim, value, venues (a list), and a role of "
                                f"{' or '.join(ROLES)}")

    @property
    def mark(self) -> str:
        """What changes with these settings: a log-in of before ends then."""
        return hashlib.sha256(json.dumps(dataclasses.asdict(self)).encode()).hexdigest()

    def person(self, claims: dict[str, Any], venue: str) -> dict[str, str]:
        """Who comes to a venue: `name`, `role`, `provider` and `sub`, which alone says who it is (OpenID
        Connect Core 1.0 section 5.7), and `claim` with `value` where the role is one person's by such a
        claim, else empty. Fault: the claims give no name or role."""
        rule = next((rule for rule in self.role if rule.fits(claims, venue)), None)
        if rule is None:
            raise Fault("this sign-in gives no role at this venue")
        name = claims.get(self.name_claim)
        if not isinstance(name, str) or fault_of_name(name):
            raise Fault(f"the claim {self.name_claim} has no name")
        if self.name_claim == "email" and claims.get("email_verified") is False:
            raise Fault("the provider has not verified this address")
        sub = claims.get("sub")
        if not isinstance(sub, str) or not sub.isascii() or not 0 < len(sub) <= LONGEST_SUB:
            raise Fault(f"the claim sub is no text of 1 to {LONGEST_SUB} characters of ASCII")
        claim, value = (rule.claim, rule.value) if rule.claim in PERSONAL else ("", "")
        return {"name": name, "role": rule.role, "provider": f"{self.issuer} {self.client_id}", "sub": sub,
                "claim": claim, "value": value}


def is_loopback(host: str) -> bool:
    """Whether this is an address of this machine alone, as in tests."""
    try:
        return ipaddress.ip_address(host).is_loopback
    except ValueError:
        return host == "localhost"


def settings_in(root: pathlib.Path) -> SignIn | None:
    """The settings of a machine; None where it has no sign-in. BadSignIn: they are not valid. OSError: they
    cannot be read."""
    path = root / FILE
    try:
        return SignIn.read(path.read_text(encoding="utf-8")) if path.exists() else None
    except (BadSignIn, UnicodeError) as fault:
        raise BadSignIn(f"{path}: {fault}") from fault


class Provider:
    """The provider, asked over HTTP. Fault: it cannot be, or its answer is not what it must be."""

    def __init__(self, conf: SignIn, redirect: str) -> None:
        from authlib.integrations.requests_client import OAuth2Session
        self.conf = conf
        self.session = OAuth2Session(
            conf.client_id, conf.client_secret or None, scope=conf.scopes, redirect_uri=redirect,
            code_challenge_method="S256",
            token_endpoint_auth_method="client_secret_basic" if conf.client_secret else "none")
        self.session.max_redirects = 0
        self.about = self.get(conf.issuer.rstrip("/") + "/.well-known/openid-configuration")
        if self.about.get("issuer") != conf.issuer:
            raise Fault("the provider's description names another issuer")

    def get(self, url: str) -> dict[str, Any]:
        """What is at an address of the provider."""
        answer = self.session.get(url, timeout=PATIENCE, withhold_token=True)
        answer.raise_for_status()
        found = answer.json()
        if not isinstance(found, dict):
            raise Fault("the provider's answer is no object")
        return found

    def begin(self) -> dict[str, Any]:
        """Where the browser is to go, and what has to come back."""
        verifier, nonce, begun = secrets.token_urlsafe(48), secrets.token_urlsafe(24), int(time.time())
        # prompt alone is for the provider to heed or not; of max_age it has to say in auth_time what it did
        url, state = self.session.create_authorization_url(
            self.about["authorization_endpoint"], code_verifier=verifier, nonce=nonce,
            state=secrets.token_urlsafe(24), prompt="login", max_age=LEEWAY)
        return {"url": url, "state": state, "nonce": nonce, "verifier": verifier, "begun": str(begun)}

    def claims(self, code: str, verifier: str, nonce: str, begun: int) -> dict[str, Any]:
        """The claims of who comes back with a code, by an ID token that was checked, and of a log-in at the
        provider since this sign-in began."""
        from authlib.jose import JsonWebKey, JsonWebToken
        from authlib.oidc.core import CodeIDToken
        token = self.session.fetch_token(
            self.about["token_endpoint"], grant_type="authorization_code", code=code, code_verifier=verifier,
            timeout=PATIENCE)
        keys = JsonWebKey.import_key_set(self.get(self.about["jwks_uri"]))
        claims = JsonWebToken(ALGORITHMS).decode(
            token["id_token"], keys, claims_cls=CodeIDToken,
            claims_options={"iss": {"essential": True, "value": self.conf.issuer},
                            "aud": {"essential": True, "value": self.conf.client_id},
                            "exp": {"essential": True}, "sub": {"essential": True},
                            "nonce": {"essential": True, "value": nonce}},
            claims_params={"nonce": nonce, "client_id": self.conf.client_id,
                           "access_token": token.get("access_token", "")})
        claims.validate(now=int(time.time()), leeway=LEEWAY)
        check_moment(claims.get("auth_time"), begun)
        return dict(claims)


def check_moment(moment: object, begun: int) -> None:
    """Fault: this is no `auth_time` of a log-in at the provider since then."""
    if isinstance(moment, bool) or not isinstance(moment, (int, float)):
        raise Fault("the provider does not say when it asked for the password (the claim auth_time)")
    if not begun - LEEWAY <= moment <= time.time() + LEEWAY:
        raise Fault("the provider did not ask for the password anew (the claim auth_time)")


def answered(question: dict[str, Any], conf: SignIn) -> dict[str, Any]:
    """The answer to a question whose fields are texts. Fault: why there is none."""
    try:
        provider = Provider(conf, question["redirect"])
        if question["ask"] == "begin":
            return provider.begin()
        claims = provider.claims(question["code"], question["verifier"], question["nonce"],
                                 int(question["begun"]))
        return conf.person(claims, question["venue"])
    except ImportError as fault:
        raise Fault("the Debian packages python3-authlib and python3-requests are not installed") from fault
    except KeyError as fault:
        raise Fault(f"{fault} is missing") from fault


def answer(data: bytes, text: str) -> dict[str, Any]:
    """The answer to a question, by the text of the settings."""
    try:
        question = json.loads(data.decode())
        if not isinstance(question, dict) or {*map(type, question.values())} != {str}:
            raise Fault("the question is no object of texts")
        return answered(question, SignIn.read(text))
    except (Fault, BadSignIn) as fault:
        return {"fault": str(fault)}
    except Exception as fault:      # of authlib, requests and cryptography, whose classes may not be there
        return {"fault": f"{type(fault).__name__}: {str(fault)[:300]}"}


def main() -> int:
    """Answers one question."""
    return one_question.run("sign-in", MOST, lambda data: answer(data, credential(CREDENTIAL)))


if __name__ == "__main__":
    sys.exit(main())
