/** What has the types of a name, by TypeScript, which is loaded with the first name. */

import { resolve as absolute } from "node:path";

import { memoized } from "../files/by_folder.js";
import { isTypeScript } from "../files/file_kinds.js";
import { loadTypeScript } from "../files/program.js";
import { unlessThrown } from "../runtime/faults.js";
import { Notices } from "./package_manifests.js";
import { fileAt } from "./node_rules.js";
import type ts from "typescript";
import type { RegularFiles } from "../files/regular_files.js";
import type { Configuration, Configurations } from "./configurations.js";
import type { Importer, Name } from "./search.js";

/** Diagnostics of a file that can't be read, which are reported without TypeScript. */
const OF_FILES = new Set([5012, 5083, 6053]);
type Settings = { options: ts.CompilerOptions, cache: ts.ModuleResolutionCache };

export class TypeScriptTypes {
  private loaded: typeof ts | undefined;
  private readonly system;
  readonly notices = new Notices();

  /** @param conditions those of `exports` and `imports` besides TypeScript's own */
  constructor(
    private readonly files: RegularFiles, private readonly configurations: Configurations,
    private readonly conditions: readonly string[],
  ) {
    this.system = systemOf(files);
  }

  /** The path, without links, of the TypeScript or declaration file that has the types of a name in a file. */
  find({ specifier, syntax, ...named }: Name, { path: importer, format }: Importer): string | undefined {
    const mode = named.mode ?? (syntax === "require" ? "require" : syntax === "dynamic" ? "import" : format);
    const { compiler } = this;
    const { CommonJS, ESNext } = compiler.ModuleKind;
    const kind = mode && (mode === "import" ? ESNext : CommonJS);
    let path: string | undefined;
    for (const { options, cache } of this.allSettingsOf(importer)) {
      const all = [importer, options, this.system, undefined] as const;
      const typed = syntax === "types" && path === undefined
        ? compiler.resolveTypeReferenceDirective(specifier, ...all, undefined, kind) : undefined;
      const moduleOf = (name: string) => {
        const found = compiler.resolveModuleName(name, importer, options, this.system, cache, undefined, kind);
        return found.resolvedModule?.resolvedFileName;
      };
      path ??= typed?.resolvedTypeReferenceDirective?.resolvedFileName ??
        moduleOf(specifier) ?? this.findByJavaScriptName(specifier, moduleOf);
    }
    const found = path === undefined ? undefined : fileAt(absolute(path), this.files);
    return found?.kind === "file" && isTypeScript(found.path) ? found.path : undefined;
  }

  /** Before 5.0 TypeScript finds no file by a name with TypeScript's ending, but by that of its JavaScript. */
  private findByJavaScriptName(name: string, find: (name: string) => string | undefined) {
    const [ending, kind, jsx] = /\.([cm]?)ts(x?)$/.exec(name) ?? [];
    const isMeant = ending !== undefined && Number.parseInt(this.compiler.version) < 5;
    const found = isMeant ? find(`${name.slice(0, -ending.length)}.${kind}js${jsx}`) : undefined;
    return found?.endsWith(String(ending)) ? found : undefined;
  }

  /** The settings for a file. Names of a configuration that doesn't include the file come last. */
  private allSettingsOf(file: string): Settings[] {
    const { configuration, isIncluded } = this.configurations.of(file);
    const settings = this.settingsOf(configuration);
    const { paths, baseUrl } = settings.options;
    const isPlain = isIncluded || (paths === undefined && baseUrl === undefined);
    return isPlain ? [settings] : [this.withoutNames(settings), settings];
  }

  /** The settings of a configuration; those of `NodeNext` where there is none. */
  private readonly settingsOf = memoized((configuration: Configuration | undefined): Settings => {
    const { ModuleKind, ModuleResolutionKind } = this.compiler;
    const kinds = { module: ModuleKind.NodeNext, moduleResolution: ModuleResolutionKind.NodeNext };
    return this.withCache(configuration ? this.optionsOf(configuration) : { allowJs: true, ...kinds });
  });

  private readonly withoutNames = memoized(({ options }: Settings): Settings => {
    return this.withCache({ ...options, paths: undefined, baseUrl: undefined });
  });

  private get compiler() {
    this.loaded ??= loadTypeScript() as typeof ts;
    return this.loaded;
  }

  private optionsOf({ path, folder }: Configuration) {
    const { compiler } = this;
    const { config = {} } = compiler.readConfigFile(path, this.system.readFile);
    const { options, errors } = compiler.parseJsonConfigFileContent(config, this.system, folder, undefined, path);
    for (const { code, messageText } of errors.filter(isOfOptions)) {
      this.notices.add(path, `${compiler.flattenDiagnosticMessageText(messageText, " ")} (TS${code})`);
    }
    return options;
  }

  private withCache(options: ts.CompilerOptions): Settings {
    const customConditions = [...(options.customConditions as string[] | undefined) ?? [], ...this.conditions];
    const all = customConditions.length > 0 ? { ...options, customConditions } : options;
    return { options: all, cache: this.compiler.createModuleResolutionCache("/", (name) => name, all) };
  }
}

/** Whether a diagnostic of a configuration is of its options, and not of its syntax or of files that it names. */
const isOfOptions = ({ code }: { code: number }) => code >= 5000 && code < 18000 && !OF_FILES.has(code);

/** What TypeScript looks at files by. No folder is walked: it is known without which files are included. */
function systemOf(files: RegularFiles) {
  const at = (path: string) => files.at(absolute(path));
  return {
    useCaseSensitiveFileNames: true,
    fileExists: (path: string) => at(path).kind === "file",
    directoryExists: (path: string) => at(path).kind === "folder",
    realpath: (path: string) => at(path).path || path,
    getCurrentDirectory: () => "/",
    getDirectories: () => [],
    readDirectory: () => [],
    readFile: (path: string) => unlessThrown(() => files.read(absolute(path))),
  };
}
