"""The 31 refusals of the desk in one table: number, status, and what a clerk (cause, what to do) and a guest
read.

The words are the messages that the catalogues have in other languages.
"""

from __future__ import annotations

from dataclasses import dataclass

from portal_field.lib.message_marks import clerk_words, guest_words

SORRY = guest_words("That did not work (%(word)s). Please ask at the counter.")
UPDATE = clerk_words("Page and program are of different versions: update both.")
ODD = clerk_words("The server answered %(word)s.")


@dataclass(frozen=True)
class Refusal:
    """An error of the API: its cause and advice for clerks, and what a guest reads."""
    number: int
    word: str
    status: int
    cause: str
    advice: str
    guest: str = ""

    @property
    def for_guest(self) -> str:
        """A message with `word` in it, where the table has none for guests."""
        return self.guest or SORRY


TABLE = (
    Refusal(1, "bad_request", 400,
            clerk_words("The request was not understood."),
            clerk_words("A number, date or name is missing or wrong: look at what you typed.")),
    Refusal(2, "bad_code", 400,
            clerk_words("No such code can exist: a sign is mistyped."),
            clerk_words("Compare sign by sign; no 0, O, 1, I, L stands in a code."),
            guest_words("That is no code of ours. Please look at each sign again: there is no 0, O, 1, I or "
                        "L in a code.")),
    Refusal(3, "bad_device", 400,
            clerk_words("The device was not named."),
            clerk_words("Not for the counter: report it to whoever looks after the front end."),
            guest_words("We could not identify your device. Please leave the Wi-Fi, join it again and try "
                        "once more.")),
    Refusal(4, "bad_plans", 400,
            clerk_words("The plans file is refused as a whole."),
            clerk_words("Seven lines for each plan; seconds and bytes not both 0; no id twice.")),
    Refusal(5, "forbidden", 403,
            clerk_words("The server does not take this page's token."),
            clerk_words("The token file and the server's settings differ: run the set-up again.")),
    Refusal(6, "no_route", 404,
            clerk_words("The server does not know this path."),
            UPDATE),
    Refusal(7, "bad_method", 405,
            clerk_words("The server knows the path, but not so."),
            UPDATE),
    Refusal(8, "unknown_plan", 404,
            clerk_words("No plan of this name is loaded."),
            clerk_words("Load the plans file first, or mend the name.")),
    Refusal(9, "unknown_batch", 404,
            clerk_words("No batch of this name was issued."),
            clerk_words("Look at the name: lower-case letters, digits and hyphens, at most 32.")),
    Refusal(10, "unknown_code", 404,
            clerk_words("The code is well-formed, but was never issued here."),
            clerk_words("Another venue's voucher, or an older book: do not take it."),
            guest_words("We do not know this code. Please look at each sign again, or ask at the counter.")),
    Refusal(11, "unknown_session", 404,
            clerk_words("There never was a session of this number."),
            clerk_words("Take the number from the list of open sessions.")),
    Refusal(12, "plan_differs", 409,
            clerk_words("A plan of this id is loaded with other terms. None of the file was loaded."),
            clerk_words("A loaded plan never changes: give it a new id.")),
    Refusal(13, "batch_exists", 409,
            clerk_words("A batch of this name was issued already."),
            clerk_words("Look at its sheet, or take another name.")),
    Refusal(14, "code_taken", 409,
            clerk_words("One of the new codes exists already. Nothing was issued."),
            clerk_words("Press once more: new codes are drawn.")),
    Refusal(15, "not_sold", 409,
            clerk_words("The voucher was not sold."),
            clerk_words("Sell it first."),
            guest_words("This code has not been sold yet. Please ask at the counter.")),
    Refusal(16, "sold_already", 409,
            clerk_words("The voucher was sold before."),
            clerk_words("Do not take money twice. Look it up: it says when.")),
    Refusal(17, "refunded", 409,
            clerk_words("The voucher was refunded."),
            clerk_words("It is worth nothing: take another one."),
            guest_words("This code was refunded, so it is no longer good.")),
    Refusal(18, "expired", 410,
            clerk_words("The voucher is past its date."),
            clerk_words("It can be refunded if it was sold."),
            guest_words("This code is past its date. Please ask at the counter.")),
    Refusal(19, "used_up", 409,
            clerk_words("All uses of the voucher are redeemed."),
            clerk_words("Sell a new one."),
            guest_words("This code has been used already. If you used it on this device, look below whether "
                        "you are online.")),
    Refusal(20, "no_extend", 409,
            clerk_words("The guest's session is open and its plan does not extend."),
            clerk_words("Wait for its end, or close it."),
            guest_words("You are online already, and what you have cannot be extended. Keep this code: use "
                        "it when your time or data has ended.")),
    Refusal(21, "shape_differs", 409,
            clerk_words("The guest's open session is limited in another way."),
            clerk_words("Wait for its end, or close it."),
            guest_words("You are online with another kind of code. Keep this one: use it when your time or "
                        "data has ended.")),
    Refusal(22, "allowance_full", 409,
            clerk_words("The session would hold more than a session can."),
            clerk_words("Use the code later or elsewhere."),
            guest_words("You have as much as one device can hold. Keep this code for later.")),
    Refusal(23, "closed_already", 409,
            clerk_words("The session was closed before."),
            clerk_words("Nothing is left to do.")),
    Refusal(24, "nothing_left", 409,
            clerk_words("No use of the voucher is left, so nothing can be refunded."),
            clerk_words("All uses were redeemed: say so to the guest.")),
    Refusal(25, "moment_range", 409,
            clerk_words("The date is past what the server can count."),
            clerk_words("Look at the clock of the machine.")),
    Refusal(26, "numbers_full", 409,
            clerk_words("The server has no number left."),
            clerk_words("Start a new book.")),
    Refusal(27, "too_large", 413,
            clerk_words("The text is too long."),
            clerk_words("At most 65,536 bytes: split the plans file.")),
    Refusal(28, "not_supported", 501,
            clerk_words("The front end sent the text in pieces."),
            clerk_words("Not for the counter: report it to whoever looks after the front end.")),
    Refusal(29, "no_memory", 503,
            clerk_words("The machine is short of memory. Nothing was changed."),
            clerk_words("Try again; if it stays so, restart the machine."),
            guest_words("We are busy. Nothing was used up: please try again in a minute.")),
    Refusal(30, "stopped", 503,
            clerk_words("The server has stopped. A command that got this answer is in doubt."),
            clerk_words("It restarts by itself. Then send the form again: it takes effect once, also if it "
                        "was carried out before."),
            guest_words("Our server has stopped for a moment. Please press the button again: your code is "
                        "not used twice by it.")),
    Refusal(31, "id_reused", 409,
            clerk_words("This form was sent before with other words."),
            clerk_words("Look up what it did. The form below is a new one."),
            guest_words("This page was used before. Please press the button once more.")),
)
BY_WORD = {refusal.word: refusal for refusal in TABLE}

SILENT = Refusal(0, "no_answer", 504,
                 clerk_words("The server did not answer."),
                 clerk_words("Try again. If no answer comes at all: is portal.service running?"))
NO_ANSWER = Refusal(0, "no_answer", 504,
                    clerk_words("The server did not answer, so this command is in doubt."),
                    clerk_words("Send this form again: it takes effect once, also if it was carried out "
                                "before. If no answer comes at all: is portal.service running?"),
                    guest_words("We got no answer. Please press the button again: your code is not used "
                                "twice by it."))
NO_LEASE = Refusal(0, "no_lease", 403,
                   clerk_words("The address of this device was not given out by this network."),
                   clerk_words("The device needs an address by DHCP."),
                   guest_words("This device has no address from this network, so we cannot identify it. Turn "
                               "on DHCP (an automatic IP address) for this Wi-Fi, leave it and join it "
                               "again."))
OTHER_DEVICE = Refusal(0, "other_device", 409,
                       clerk_words("The form was shown to another device than the one that sent it."),
                       clerk_words("Leave the Wi-Fi, join it again, and load the page anew."),
                       guest_words("This page was shown to another device than the one that now has your "
                                   "address. Your code was not used. Please leave the Wi-Fi, join it again, "
                                   "and open this page anew."))


def of_word(word: str) -> Refusal:
    """The refusal of a word; a word that is not in the table is shown as it is."""
    return BY_WORD.get(word) or Refusal(0, word, 502, ODD, UPDATE)
