// What goes wrong. index.d.ts says what each says of a change. Used by: programs, by index.js; all files of this folder but link.js. The names
// in small letters are the failures of clients/cases/README.md, since play.js tells them so: a further one is one of that page and of each
// client.

export class MondlexiError extends Error {
  constructor(text, options) {
    super(text, options);
    this.name = new.target.name;
  }
}

export class Lost extends MondlexiError {}

export class Full extends Lost {}

export class Unknown extends MondlexiError {}

export class Busy extends MondlexiError {}

export class Fault extends MondlexiError {}

export class Worn extends MondlexiError {}

export class Refused extends MondlexiError {
  constructor(text, number) {
    super(text);
    this.number = number;
  }
}

export class Invalid extends MondlexiError {}

export class Moved extends MondlexiError {}
