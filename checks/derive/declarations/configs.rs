// ==== cargo_dependency: Cargo's manifest, a dependency written as a table
#[derive(Clone, Debug, Serialize, Deserialize)]
#[serde(rename_all = "kebab-case")]
pub struct DetailedDependency {
    pub version: Option<String>,
    pub registry: Option<String>,
    pub registry_index: Option<String>,
    pub path: Option<String>,
    pub git: Option<String>,
    pub branch: Option<String>,
    pub tag: Option<String>,
    pub rev: Option<String>,
    pub features: Option<Vec<String>>,
    pub optional: Option<bool>,
    pub default_features: Option<bool>,
    #[serde(rename = "default_features")]
    pub default_features2: Option<bool>,
    pub package: Option<String>,
    pub public: Option<bool>,
    #[serde(skip_serializing)]
    #[serde(flatten)]
    pub _unused_keys: BTreeMap<String, String>,
}

// ==== cargo_string_or_vec: Cargo's manifest, what may be a text or a list of texts
#[derive(Clone, Debug, PartialEq, Eq, Serialize, Deserialize)]
#[serde(untagged)]
pub enum StringOrVec {
    String(String),
    List(Vec<String>),
}

#[derive(Clone, Debug, PartialEq, Eq, Default, Serialize, Deserialize)]
#[serde(rename_all = "kebab-case")]
pub struct Badge {
    pub repository: Option<String>,
    #[serde(default)]
    pub branches: Vec<String>,
    #[serde(skip_serializing_if = "Option::is_none")]
    pub keywords: Option<StringOrVec>,
}

// ==== cargo_profile: the crate cargo_toml, a build profile
#[derive(Debug, Clone, PartialEq, Eq, Serialize, Deserialize)]
#[serde(rename_all = "kebab-case")]
pub struct Profile {
    #[serde(default, skip_serializing_if = "Option::is_none")]
    pub opt_level: Option<OptLevel>,
    #[serde(default, skip_serializing_if = "Option::is_none")]
    pub debug: Option<bool>,
    #[serde(default, skip_serializing_if = "Option::is_none")]
    pub rpath: Option<bool>,
    #[serde(default, skip_serializing_if = "Option::is_none")]
    pub codegen_units: Option<u16>,
    #[serde(default, skip_serializing_if = "Option::is_none")]
    pub inherits: Option<String>,
    #[serde(default, skip_serializing_if = "BTreeMap::is_empty")]
    pub package: BTreeMap<String, Profile>,
    #[serde(default, skip_serializing_if = "Option::is_none")]
    pub build_override: Option<Box<Profile>>,
}

#[derive(Debug, Clone, PartialEq, Eq, Serialize, Deserialize)]
#[serde(untagged)]
pub enum OptLevel {
    Number(u8),
    Text(String),
}

// ==== helix_file_picker: the editor Helix, options of its file picker
#[derive(Debug, Clone, PartialEq, Eq, Serialize, Deserialize)]
#[serde(rename_all = "kebab-case", default, deny_unknown_fields)]
pub struct FilePickerConfig {
    /// Enables ignoring hidden files.
    pub hidden: bool,
    /// Enables following symlinks.
    pub follow_symlinks: bool,
    pub deduplicate_links: bool,
    pub parents: bool,
    pub ignore: bool,
    pub git_ignore: bool,
    pub max_depth: Option<usize>,
}

impl Default for FilePickerConfig {
    fn default() -> Self {
        Self {
            hidden: true,
            follow_symlinks: true,
            deduplicate_links: true,
            parents: true,
            ignore: true,
            git_ignore: true,
            max_depth: None,
        }
    }
}

// ==== compose_service: Docker Compose, a service
#[derive(Clone, Debug, Default, PartialEq, Eq, Serialize, Deserialize)]
#[serde(deny_unknown_fields)]
pub struct Service {
    #[serde(skip_serializing_if = "Option::is_none")]
    pub hostname: Option<String>,
    #[serde(default, skip_serializing_if = "std::ops::Not::not")]
    pub privileged: bool,
    #[serde(skip_serializing_if = "Option::is_none")]
    pub image: Option<String>,
    #[serde(default, skip_serializing_if = "Vec::is_empty")]
    pub ports: Vec<String>,
    #[serde(default, skip_serializing_if = "Environment::is_empty")]
    pub environment: Environment,
    #[serde(skip_serializing_if = "Option::is_none")]
    pub restart: Option<String>,
    #[serde(default, skip_serializing_if = "Vec::is_empty")]
    pub depends_on: Vec<String>,
}

#[derive(Clone, Debug, PartialEq, Eq, Serialize, Deserialize)]
#[serde(untagged)]
pub enum Environment {
    List(Vec<String>),
    Map(BTreeMap<String, String>),
}

impl Default for Environment {
    fn default() -> Self {
        Self::List(Vec::new())
    }
}

// ==== compose_port: Docker Compose, the long form of a port
#[derive(Clone, Debug, PartialEq, Eq, Hash, Serialize, Deserialize)]
#[serde(deny_unknown_fields)]
pub struct Port {
    pub target: u16,
    #[serde(skip_serializing_if = "Option::is_none")]
    pub host_ip: Option<String>,
    #[serde(skip_serializing_if = "Option::is_none")]
    pub published: Option<PublishedPort>,
    #[serde(skip_serializing_if = "Option::is_none")]
    pub protocol: Option<String>,
    #[serde(skip_serializing_if = "Option::is_none")]
    pub mode: Option<String>,
}

#[derive(Clone, Debug, PartialEq, Eq, Hash, Serialize, Deserialize)]
#[serde(untagged)]
pub enum PublishedPort {
    Single(u16),
    Range(String),
}

// ==== diesel_print_schema: diesel.toml, what is printed of a schema
#[derive(Debug, Clone, Default, Deserialize, Serialize)]
#[serde(deny_unknown_fields)]
pub struct PrintSchema {
    #[serde(default)]
    pub file: Option<PathBuf>,
    #[serde(default)]
    pub with_docs: DocConfig,
    #[serde(default)]
    pub filter: Filtering,
    #[serde(default)]
    pub schema: Option<String>,
    #[serde(default)]
    pub import_types: Option<Vec<String>>,
    #[serde(default)]
    pub custom_type_derives: Option<Vec<String>>,
}

#[derive(Debug, Clone, Copy, Default, Deserialize, Serialize)]
#[serde(rename_all = "kebab-case")]
pub enum DocConfig {
    #[default]
    NoDocComments,
    OnlyDatabaseComments,
    DatabaseCommentsFallbackToAutoGeneratedDocComment,
}

#[derive(Debug, Clone, Default, Deserialize, Serialize)]
pub enum Filtering {
    OnlyTables(Vec<String>),
    ExceptTables(Vec<String>),
    #[default]
    None,
}

// ==== rust_project_crate: rust-analyzer, a crate of rust-project.json
#[derive(Serialize, Deserialize, Clone, Debug, Eq, PartialEq)]
struct CrateData {
    display_name: Option<String>,
    root_module: String,
    edition: EditionData,
    #[serde(default)]
    version: Option<String>,
    deps: Vec<Dep>,
    #[serde(default)]
    cfg: Vec<String>,
    target: Option<String>,
    #[serde(default)]
    env: BTreeMap<String, String>,
    is_workspace_member: Option<bool>,
    #[serde(skip_serializing_if = "Option::is_none")]
    source: Option<CrateSource>,
    #[serde(default)]
    is_proc_macro: bool,
}

#[derive(Serialize, Deserialize, Debug, Clone, Eq, PartialEq)]
#[serde(rename = "edition")]
enum EditionData {
    #[serde(rename = "2015")]
    Edition2015,
    #[serde(rename = "2018")]
    Edition2018,
    #[serde(rename = "2021")]
    Edition2021,
}

#[derive(Serialize, Deserialize, Debug, Clone, Eq, PartialEq)]
struct Dep {
    #[serde(rename = "crate")]
    krate: usize,
    name: String,
}

#[derive(Serialize, Deserialize, Debug, Clone, Eq, PartialEq)]
struct CrateSource {
    include_dirs: Vec<String>,
    exclude_dirs: Vec<String>,
}

// ==== github_workflow_step: GitHub Actions, a step of a job
#[derive(Debug, Clone, PartialEq, Eq, Serialize, Deserialize)]
#[serde(rename_all = "kebab-case")]
pub struct Step {
    pub id: Option<String>,
    pub r#if: Option<String>,
    pub name: Option<String>,
    pub timeout_minutes: Option<u64>,
    #[serde(default)]
    pub continue_on_error: bool,
    #[serde(default)]
    pub env: BTreeMap<String, EnvValue>,
    #[serde(flatten)]
    pub body: StepBody,
}

#[derive(Debug, Clone, PartialEq, Eq, Serialize, Deserialize)]
#[serde(rename_all = "kebab-case", untagged)]
pub enum StepBody {
    Uses { uses: String, #[serde(default)] with: BTreeMap<String, EnvValue> },
    Run { run: String, working_directory: Option<String>, shell: Option<String> },
}

#[derive(Debug, Clone, PartialEq, Eq, Serialize, Deserialize)]
#[serde(untagged)]
pub enum EnvValue {
    String(String),
    Number(i64),
    Boolean(bool),
}

// ==== gitlab_ci_job: GitLab's continuous integration, a job
#[derive(Debug, Clone, Serialize, Deserialize)]
pub struct Job {
    #[serde(default = "default_stage")]
    pub stage: String,
    #[serde(default, alias = "before-script", skip_serializing_if = "Vec::is_empty")]
    pub before_script: Vec<String>,
    pub script: Vec<String>,
    #[serde(default, skip_serializing_if = "Vec::is_empty")]
    pub tags: Vec<String>,
    #[serde(default)]
    pub when: When,
    #[serde(default = "yes")]
    pub interruptible: bool,
}

#[derive(Debug, Clone, Copy, Default, PartialEq, Eq, Serialize, Deserialize)]
#[serde(rename_all = "snake_case")]
pub enum When {
    #[default]
    OnSuccess,
    OnFailure,
    Always,
    Manual,
    Delayed,
    Never,
}

fn default_stage() -> String {
    "test".to_owned()
}

fn yes() -> bool {
    true
}

// ==== tracing_log_settings: a server's configuration, its log
#[derive(Debug, Clone, PartialEq, Eq, Serialize, Deserialize)]
pub struct LogSettings {
    #[serde(default = "LogSettings::level")]
    pub level: LogLevel,
    #[serde(default)]
    pub format: LogFormat,
    #[serde(default = "LogSettings::directory")]
    pub directory: PathBuf,
    #[serde(default = "LogSettings::keep")]
    pub keep_files: usize,
}

#[derive(Debug, Clone, Copy, PartialEq, Eq, Serialize, Deserialize)]
#[serde(rename_all = "lowercase")]
pub enum LogLevel {
    Error,
    #[serde(alias = "warning")]
    Warn,
    Info,
    Debug,
    Trace,
}

#[derive(Debug, Clone, Copy, PartialEq, Eq, Default, Serialize, Deserialize)]
#[serde(rename_all = "lowercase")]
pub enum LogFormat {
    #[default]
    Text,
    Json,
}

// ==== rocket_tls: the web framework Rocket, a server's TLS
#[derive(Debug, Clone, PartialEq, Eq, Hash, Serialize, Deserialize)]
pub struct TlsConfig {
    pub certs: String,
    pub key: String,
    #[serde(default)]
    pub ciphers: BTreeSet<CipherSuite>,
    #[serde(default)]
    pub prefer_server_cipher_order: bool,
    #[serde(default)]
    pub mutual: Option<MutualTls>,
}

#[derive(Debug, Clone, PartialEq, Eq, Hash, Serialize, Deserialize)]
pub struct MutualTls {
    pub ca_certs: String,
    #[serde(default)]
    #[serde(deserialize_with = "figment::util::bool_from_str_or_int")]
    pub mandatory: bool,
}

#[derive(Debug, Clone, Copy, PartialEq, Eq, PartialOrd, Ord, Hash, Serialize, Deserialize)]
#[allow(non_camel_case_types)]
pub enum CipherSuite {
    TLS_CHACHA20_POLY1305_SHA256,
    TLS_AES_256_GCM_SHA384,
    TLS_AES_128_GCM_SHA256,
}

// ==== clippy_disallowed: Clippy's clippy.toml, a path that is not allowed
#[derive(Clone, Debug, Deserialize)]
#[serde(untagged)]
pub enum DisallowedPath {
    Simple(String),
    WithReason { path: String, reason: Option<String>, replacement: Option<String> },
}
