// Questions about a list that its owner answers before it is published and before a draw: whether
// its first line is a heading, and whether it is a text in UTF-8.

import { textOf, utf8 } from "./bytes.js";
import { decoded, encodingOf } from "./encoding.js";
import { shown } from "./entrant.js";
import { withoutInvisible } from "./invisible.js";
import { kindOfFile } from "./kinds.js";
import { Refusal } from "./refusal.js";

/** The words of which the headings of columns consist, in the languages of spreadsheets that we have seen. */
const HEADINGS = new Set(
  ("name names full first last given family user username surname forename nickname title entrant entrants entry " +
  "entries participant participants candidate candidates applicant applicants member members person people player " +
  "players student students employee employees guest guests team teams group groups ticket tickets number no nr # id " +
  "ids code codes list e-mail email mail address phone city town status timestamp date " +
  "vorname nachname familienname namen teilnehmer teilnehmende teilnehmerin teilnehmerinnen mitglied mitglieder los " +
  "lose losnummer nummer anrede ort adresse kundennummer nom noms prénom prénoms numéro billet adhérent nombre " +
  "nombres apellido apellidos participante participantes número correo nome cognome partecipante partecipanti " +
  "indirizzo naam voornaam achternaam deelnemer deelnemers namn förnamn efternamn navn fornavn etternavn efternavn " +
  "nimi etunimi sukunimi imię nazwisko jméno příjmení meno priezvisko név ime prezime ad adı soyad soyadı " +
  "имя фамилия фио участник участники όνομα επώνυμο שם 姓名 名前 氏名 名字 이름 성명 الاسم").split(" "),
);

const CONNECTING = new Set(["of", "and", "et", "y", "e", "i", "und", "en", "och", "og"]);

/** Between the columns of a line, as spreadsheets write them. */
const COLUMNS = /[,;\t|]/;

/** The greatest length of a heading in a cell. */
const HEADING = 100;

/** Whether a cell of the first line consists of the words of headings. @param {string} cell */
function isHeading(cell) {
  if (cell.length > HEADING) return false;
  const words = withoutInvisible(cell).normalize("NFKC").toLowerCase().replace(/\(.*?\)|\*\w+/g, "").split(/[\s"':.*_/]+/);
  const named = words.filter((word) => word !== "" && !CONNECTING.has(word));
  return named.length > 0 && named.every((word) => HEADINGS.has(word));
}

/**
 * Whether the first line looks like a heading: one of its columns is a usual heading, or it is the only
 * line without a digit and without an @, of three or more.
 * @param {string[]} lines @returns {boolean}
 */
function hasHeading(lines) {
  if (lines.length < 2) return false;
  if (/^sep=/.test(lines[0]) || lines[0].split(COLUMNS).some(isHeading)) return true;
  const isNumbered = (line) => /[0-9@]/.test(line);
  return lines.length > 2 && !isNumbered(lines[0]) && lines.slice(1).every(isNumbered);
}

/** At most three lines of a text that have a letter outside ASCII, or else the first three lines. */
function linesToShow(text) {
  const lines = text.split(/\r\n?|\n/).filter((line) => line !== "");
  const foreign = lines.filter((line) => /[^\x00-\x7f]/.test(line));
  return (foreign.length > 0 ? foreign : lines).slice(0, 3);
}

const UTF_16 = "This file is saved in another form of text (UTF-16, which Excel calls “Unicode text”). A draw needs " +
  "the usual one, UTF-8.";

/** What the page says about each encoding. */
const ENCODINGS = {
  "utf-16le": UTF_16,
  "utf-16be": UTF_16,
  "windows-1252": "This file is not saved in the usual form of text, UTF-8. It seems to be in an older form of " +
    "Windows (Windows-1252), as Excel saves CSV files. Letters that this form does not have, and emoji, were saved as " +
    "question marks: to keep them, save the list again as CSV UTF-8.",
  "unknown": new Refusal("list is no text").words,
};

/** What is said of a record that was pasted as a list. */
const A_RECORD = new Refusal("file is a record").words;

const AS_IT_IS = { label: "Keep the file as it is" };

/**
 * A question: its text; the lines that it shows, with what is said above them; and the answers. An
 * answer without a change keeps the list. `id` is equal for equal questions.
 * @typedef {Object} Question
 * @property {string} id
 * @property {string} text
 * @property {string} above
 * @property {Object[]} lines
 * @property {{label: string, change?: string}[]} choices
 */

/** @param {Uint8Array} list @param {string} encoding @returns {Question} */
function encodingQuestion(list, encoding) {
  const isRecord = encoding === "unknown" && kindOfFile(list) === "record";
  const text = isRecord ? A_RECORD : ENCODINGS[encoding];
  const question = { id: `encoding ${encoding}`, text };
  if (encoding === "unknown") return { ...question, above: "", lines: [], choices: [AS_IT_IS] };
  return {
    ...question,
    above: "Converted to UTF-8 it reads like this. If letters are wrong, do not convert: save the file as UTF-8 " +
      "where it was made.",
    lines: linesToShow(decoded(list, encoding)).map((line) => shown(utf8(line))),
    choices: [{ label: "Convert it to UTF-8", change: encoding }, AS_IT_IS],
  };
}

/** @param {string} text the list @returns {Question[]} one if the first line looks like a heading */
function headingQuestions(text) {
  const lines = text.split("\n");
  if (lines[lines.length - 1] === "") lines.pop();
  if (!hasHeading(lines)) return [];
  return [{
    id: `heading ${lines.slice(0, 2).join("\n")}`,
    text: "Line 1 looks like a heading, not like an entrant. Could it win?",
    above: "",
    lines: [shown(utf8(lines[0]))],
    choices: [{ label: "Remove line 1", change: "heading" }, { label: "It is an entrant" }],
  }];
}

/**
 * The questions about a list. UTF-16 and what is no text has no lines of which the first could be a
 * heading.
 * @param {Uint8Array} list @returns {Question[]}
 */
export function questionsOf(list) {
  const encoding = encodingOf(list);
  const hasLines = encoding === "utf-8" || encoding === "windows-1252";
  return [
    ...(encoding === "utf-8" ? [] : [encodingQuestion(list, encoding)]),
    ...(hasLines ? headingQuestions(textOf(list) ?? decoded(list, encoding)) : []),
  ];
}
