// Prints the ModuleInfo of a source text, or the report on it, by P/Invoke.
//
// example: mcs -out:analyze.exe examples/embedding/Analyze.cs && mono analyze.exe file:///a.js < a.js
using System;
using System.Runtime.InteropServices;
using System.Text;
using System.Text.RegularExpressions;

static class Analyze
{
    const byte Fault = 1, TooSmall = 2, AnalyzeSource = 8, CheckSource = 9;

    [DllImport("libmodinfo.so.0")]
    static extern byte modinfo_run(byte command, byte[] document, UIntPtr size, byte[] answer, UIntPtr room, out UIntPtr length);

    // The status of a command on a document, and the line that it writes, in the room that it needs.
    static byte Run(byte command, byte[] document, out string line)
    {
        byte status;
        var length = (UIntPtr)4096;
        do
        {
            var answer = new byte[(int)length];
            status = modinfo_run(command, document, (UIntPtr)document.Length, answer, (UIntPtr)answer.Length, out length);
            line = Encoding.UTF8.GetString(answer, 0, status == TooSmall ? 0 : (int)length);
        } while (status == TooSmall);
        return status;
    }

    static string Quoted(string text)
    {
        return '"' + Regex.Replace(text, "[\"\\\\\x00-\x1f]", each => string.Format("\\u{0:x4}", (int)each.Value[0])) + '"';
    }

    static int Main(string[] words)
    {
        Console.InputEncoding = Console.OutputEncoding = new UTF8Encoding(false);
        var json = "{\"specifier\":" + Quoted(words[0]) + ",\"source\":" + Quoted(Console.In.ReadToEnd()) + "}";
        string line;
        var status = Run(AnalyzeSource, Encoding.UTF8.GetBytes(json), out line);
        if (status == Fault)
            Run(CheckSource, Encoding.UTF8.GetBytes(json), out line);
        Console.Write(line);
        return status;
    }
}
