export default { title: "Das Wetter" };
