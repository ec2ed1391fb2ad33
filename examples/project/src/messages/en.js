export default { title: "The weather" };
