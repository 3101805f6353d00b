// One's own password: another one, and leaving. Both want the present password again.

import { account, dropAccount, logIn, proofOf, send } from "../account.js";
import { isDead, setDead, deliberateButton } from "../deliberate_button.js";
import { el, fill } from "../dom.js";
import { askToLogIn } from "../login.js";
import { tell } from "../notice.js";
import { passwordBox } from "../passbox.js";
import { basicOf, secretOf, verifierOf } from "../passwords.js";
import { faultWords } from "../sending/command.js";
import { title } from "../widgets.js";
import { answerWords } from "../words.js";

// A form that carries something out with the present password, and says what came of it.
function presentForm({ front, more, words, kind, call }) {
  const place = el("div", { class: "said" });
  const present = el("input", {
    id: `${front}-present`, type: "password", autocomplete: "current-password", required: true,
    maxlength: 200,
  });
  const button = deliberateButton(kind ? { class: kind } : {}, words);
  const submit = async (event) => {
    event.preventDefault();
    if (isDead(button)) return;
    setDead(button, true);
    fill(place);
    const name = account();
    const proof = await proofOf(name, present.value);
    const answer = proof.value ? await call({
      name, headers: proof.value, typed: present.value, place,
    }) : proof;
    setDead(button, false);
    if (!answer.value) fill(place, faultWords(answerWords(answer)));
  };
  return el("form", { onsubmit: submit },
    el("p", {}, el("label", { for: present.id }, "Present password"), present), more,
    el("p", { class: "buttons" }, button), place);
}

// Where no answer came, the new password tells whether it was done.
async function changed(name, headers, password) {
  const secret = await secretOf(name, password);
  const answer = await send("/password", headers, { verifier: await verifierOf(name, secret) });
  if (answer.value || answer.refusal) return [answer, secret];
  const proof = await proofOf(name, secret);
  return [proof.value ? proof : answer, secret];
}

function changeForm() {
  const box = passwordBox("password", "New password");
  const call = async ({ name, headers, place }) => {
    const [answer, secret] = await changed(name, headers, box.value());
    if (!answer.value) return answer;
    await box.offer(name);
    await logIn({ name, password: secret, stays: true, isBusy: true, isWanted: () => true });
    tell("The password is another one now. Other log-ins have ended.", 8);
    fill(place, el("p", { class: "good" }, "Done."));
    return answer;
  };
  return presentForm({
    front: "password", more: box.element, words: "Change it", kind: "main", call,
  });
}

function leaveForm(go) {
  const call = async ({ name, headers }) => {
    const answer = await send("/leave", headers);
    if (!answer.value) return answer;
    dropAccount(name);
    tell(`${name} can't log in any more.`, 8);
    go("/");
    return answer;
  };
  return presentForm({ front: "leave", words: "Leave for good", call });
}

// Programs send what pages send: a password that was chosen they need in that form.
function forPrograms() {
  const call = async ({ name, headers, typed, place }) => {
    const secret = await secretOf(name, typed);
    const isSent = headers.Authorization === basicOf(name, secret);
    fill(place, el("code", {}, `${name}:${isSent ? secret : typed}`));
    return { value: true };
  };
  return presentForm({ front: "programs", words: "Show it", call });
}

/** The page. */
export default async function password({ go }) {
  if (!account()) {
    const enter = el("button", { type: "button", class: "main", onclick: () => askToLogIn() },
      "Log in");
    return [title("Your password"), el("p", {}, enter)];
  }
  return [
    title(`The password of ${account()}`), changeForm(),
    el("h2", {}, "For programs"),
    el("p", {}, "Programs such as curl send name and password with each command. One that you chose"
      + " they send in another form."),
    forPrograms(),
    el("h2", {}, "Leave"),
    el("p", {}, "Nobody can log in with this account any more, and nobody else gets its name. What"
      + " you proposed stays, with your name. Withdraw first what is pending."),
    leaveForm(go),
  ];
}
