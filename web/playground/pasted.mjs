// Lines that come from elsewhere: of a script, of a transcript, or of a server's session. Each says more than a box
// takes, or less, and is answered with what has to go.
import { commandNamed, isNumber } from "./commands.mjs";

/**
 * What has to be left out of a faulty line, and its command: {says, command}, or null where it isn't such a line. `seat`
 * is whose box it is, or null in a script. `undecided` is that session's own transaction, or null.
 */
export function leaveOut(line, { seat, undecided }) {
  const words = line.split(" ");
  const at = words.findIndex((it) => !/^\d+$/.test(it));
  const command = commandNamed(words[at]);
  if (!command || at > 2) return null;
  const behind = words.slice(at + 1);
  const parts = partsOf(at, behind[command.slots.length] === "=>", seat);
  const says = [];
  if (parts.length > 0) says.push(`Leave out ${listed(parts)}${whySo(parts, seat)}`);
  if (parts.includes("the session") && words[at - 1] !== `${seat}`)
    says.push(`Session ${words[at - 1]} has a box of its own.`);
  if (hasDot(command, behind)) says.push(dotSays(undecided));
  return says.length > 0 ? { says: says.join(" "), command } : null;
}

// In a script a line has its session, and in a box none.
function partsOf(at, isAnswered, seat) {
  const parts = [];
  if (at === 2) parts.push("the position");
  if (at > 0 && seat !== null) parts.push("the session");
  if (isAnswered) parts.push("the answer");
  return parts;
}

function whySo(parts, seat) {
  if (parts.includes("the session")) return `: this box is session ${seat}'s.`;
  return parts.length === 1 && parts[0] === "the answer" ? ", from => on." : ".";
}

const hasDot = ({ slots }, words) => slots.some((it, i) => isNumber(it) && words[i] === ".");

function dotSays(undecided) {
  const here = undecided === null ? "" : `, here ${undecided}`;
  return `Leave out the dot, which a server alone knows, and write the transaction's timestamp${here}.`;
}

function listed(parts) {
  return parts.length === 1 ? parts[0] : `${parts.slice(0, -1).join(", ")} and ${parts.at(-1)}`;
}
