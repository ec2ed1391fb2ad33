"use strict";

module.exports = ({ title, days }) => [title, ...days.map(({ name }) => name)].join("\n");
