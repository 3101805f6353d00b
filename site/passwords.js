// Passwords. What is sent and hashed is 128 bits in hex digits: at random, or stretched here from
// what a person chose, so that nobody tries many for one that was hashed. Joining sends a verifier,
// by which nginx knows the password and nobody finds it.

const ROUNDS = 600_000;
const MADE = /^[0-9a-f]{32}$/;
const encoded = (text) => new TextEncoder().encode(text);
const bytesOf = async (name, data, bits) => (
  new Uint8Array(await crypto.subtle.digest(name, data)).slice(0, bits / 8));
const hexOf = (bytes) => Array.from(bytes, (it) => it.toString(16).padStart(2, "0")).join("");
const base64 = (bytes) => btoa(String.fromCharCode(...bytes));

/** The fewest characters of a password that a person chooses. */
export const FEWEST = 12;

/** A password at random. */
export const newPassword = () => hexOf(crypto.getRandomValues(new Uint8Array(16)));

/** Whether a password is one that was made. */
export const isMade = (password) => MADE.test(password);

/** What is sent for a password of a name. */
export async function secretOf(name, password) {
  if (isMade(password)) return password;
  const key = await crypto.subtle.importKey("raw", encoded(password.normalize("NFC")), "PBKDF2",
    false, ["deriveBits"]);
  const salt = encoded(`pciids ${name}`);
  const how = { name: "PBKDF2", hash: "SHA-256", iterations: ROUNDS, salt };
  return hexOf(new Uint8Array(await crypto.subtle.deriveBits(how, key, 128)));
}

/** What may have to be sent for a password: one that was set on the server is sent as it is. */
export function* secretsOf(name, password) {
  yield secretOf(name, password);
  if (!isMade(password)) yield password;
}

/** The value of `Authorization` for a name and what is sent for its password. */
export const basicOf = (name, secret) => `Basic ${base64(encoded(`${name}:${secret}`))}`;

/** By what nginx knows a password: RFC 2307's salted SHA-1, with a salt that the name makes. */
export async function verifierOf(name, secret) {
  const salt = await bytesOf("SHA-256", encoded(`pciids ${name}`), 64);
  const sum = await bytesOf("SHA-1", new Uint8Array([...encoded(secret), ...salt]), 160);
  return `{SSHA}${base64([...sum, ...salt])}`;
}
