"""The languages of the guests' page and of the counter's: each tag with the language's own name. It needs no
package of Debian, so the check of field.toml has it too."""

from __future__ import annotations

GUESTS = {"en": "English", "de": "Deutsch", "fr": "Français", "es": "Español", "it": "Italiano",
          "pt": "Português",
          "pl": "Polski", "tr": "Türkçe", "uk": "Українська", "ar": "العربية", "ja": "日本語",
          "zh-Hans": "简体中文", "zh-Hant": "繁體中文", "nl": "Nederlands", "cs": "Čeština", "ko": "한국어"}
COUNTER = {tag: GUESTS[tag] for tag in ("en", "de")}
