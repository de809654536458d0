;;; c25-mode.el --- Sources of c25, the assembler for the TMS320C25  -*- lexical-binding: t -*-

;;; Commentary:

;; Colours for sources, their comments for M-;, labels for imenu, and places of faults for M-x compile.
;; The names between the marked lines are put in by editors/make.py.

;;; Code:

(require 'compile)

;; [names]
(defconst c25-mnemonics
  '("ABS" "ADD" "ADDC" "ADDH" "ADDK" "ADDS" "ADDT" "ADLK" "ADRK" "AND" "ANDK" "APAC" "B" "BACC" "BANZ" "BBNZ" "BBZ" "BC"
    "BGEZ" "BGZ" "BIOZ" "BIT" "BITT" "BLEZ" "BLKD" "BLKP" "BLZ" "BNC" "BNV" "BNZ" "BV" "BZ" "CALA" "CALL" "CMPL" "CMPR"
    "CNFD" "CNFP" "DINT" "DMOV" "EINT" "FORT" "IDLE" "IN" "LAC" "LACK" "LACT" "LALK" "LAR" "LARK" "LARP" "LDP" "LDPK"
    "LPH" "LRLK" "LST" "LST1" "LT" "LTA" "LTD" "LTP" "LTS" "MAC" "MACD" "MAR" "MPY" "MPYA" "MPYK" "MPYS" "MPYU" "NEG"
    "NOP" "NORM" "OR" "ORK" "OUT" "PAC" "POP" "POPD" "PSHD" "PUSH" "RC" "RET" "RFSM" "RHM" "ROL" "ROR" "ROVM" "RPT"
    "RPTK" "RSXM" "RTC" "RTXM" "RXF" "SACH" "SACL" "SAR" "SBLK" "SBRK" "SC" "SFL" "SFR" "SFSM" "SHM" "SOVM" "SPAC" "SPH"
    "SPL" "SPM" "SQRA" "SQRS" "SST" "SST1" "SSXM" "STC" "STXM" "SUB" "SUBB" "SUBC" "SUBH" "SUBK" "SUBS" "SUBT" "SXF"
    "TBLR" "TBLW" "TRAP" "XOR" "XORK" "ZAC" "ZALH" "ZALR" "ZALS")
  "Mnemonics, in upper case.")

(defconst c25-directives
  '("asg" "break" "bss" "byte" "copy" "data" "def" "else" "elseif" "end" "endif" "endloop" "endm" "equ" "eval" "fclist"
    "fcnolist" "global" "if" "include" "int" "label" "length" "list" "loop" "macro" "mexit" "mlist" "mmregs" "mnolist"
    "nolist" "option" "page" "ref" "sect" "set" "space" "sslist" "ssnolist" "string" "text" "title" "usect" "width"
    "word")
  "Directives without their point.")

(defconst c25-registers
  '("AR0" "AR1" "AR2" "AR3" "AR4" "AR5" "AR6" "AR7" "PA0" "PA1" "PA2" "PA3" "PA4" "PA5" "PA6" "PA7" "PA8" "PA9" "PA10"
    "PA11" "PA12" "PA13" "PA14" "PA15")
  "Predefined names.")

(defconst c25-memory-mapped
  '("DRR" "DXR" "TIM" "PRD" "IMR" "GREG")
  "Names of .mmregs.")
;; [end]

(defgroup c25 nil "Sources of the TMS320C25." :group 'languages)

(defface c25-substitution '((t :inherit font-lock-warning-face)) "A name between colons.")

;; The second field of a line.

(defun c25--face-of-word (word)
  "The face of WORD in the place of a mnemonic: that of a mnemonic, a directive or a macro."
  (cond ((member (upcase word) c25-mnemonics) 'font-lock-keyword-face)
        ((not (string-prefix-p "." word)) 'font-lock-builtin-face)
        ((member (downcase (substring word 1)) c25-directives) 'font-lock-preprocessor-face)))

(defconst c25-font-lock-keywords
  `(("^\\([^ \t\n*;][^ \t\n;]*\\)?[ \t]+\\([^ \t\n;]+\\)"
     (1 font-lock-function-name-face nil t)
     (2 (c25--face-of-word (match-string-no-properties 2))))
    ("^[^ \t\n*;][^ \t\n;]*" . font-lock-function-name-face)
    ("[ \t,]\\(\\*\\(?:[Bb][Rr]0[+-]\\|0[+-]\\|[+-]\\)?\\)[ \t]*\\(?:[,;]\\|$\\)" (1 font-lock-variable-name-face))
    (,(concat "\\_<\\(?:" (regexp-opt (append c25-registers (mapcar #'downcase c25-registers) c25-memory-mapped)) "\\)\\_>")
     . font-lock-type-face)
    ("\\_<\\(?:[0-9]+\\|[0-9][0-9A-Fa-f]*[Hh]\\|[0-7]+[Qq]\\|[01]+[Bb]\\)\\_>" . font-lock-constant-face)
    (":[A-Za-z_][0-9A-Za-z_$]*:" . 'c25-substitution))
  "What is coloured in addition to comments and strings.")

(defconst c25-syntax-propertize
  (syntax-propertize-rules
   ("^\\(\\*\\)" (1 "<"))
   ("\\('\\)\\(?:''\\|[^'\n]\\)\\('\\)" (1 "|") (2 "|"))
   ("\\(\"\\)\\(?:[^\"\n]\\|\"\"\\)*\\(\"\\)" (1 "|") (2 "|")))
  "Comments from column 1 on, and quotes that are closed in their line.")

(defvar c25-mode-syntax-table
  (let ((table (make-syntax-table)))
    (modify-syntax-entry ?\; "<" table)
    (modify-syntax-entry ?\n ">" table)
    (modify-syntax-entry ?\" "." table)
    (modify-syntax-entry ?\' "." table)
    (modify-syntax-entry ?\\ "." table)
    (dolist (sign '(?_ ?$ ?.)) (modify-syntax-entry sign "_" table))
    (dolist (sign '(?* ?+ ?- ?/ ?% ?< ?> ?= ?& ?| ?^ ?~ ?!)) (modify-syntax-entry sign "." table))
    table)
  "Letters, quotes and comments of sources.")

;;;###autoload
(define-derived-mode c25-mode prog-mode "C25"
  "Mode for sources of c25.  \\[compile] assembles the file, or runs make where there is a Makefile."
  (setq-local comment-start "; " comment-start-skip "\\(?:;+\\|^\\*+\\)[ \t]*" comment-column 32)
  (setq-local syntax-propertize-function c25-syntax-propertize)
  (setq-local font-lock-defaults '(c25-font-lock-keywords))
  (setq-local imenu-generic-expression '((nil "^\\([A-Za-z_][0-9A-Za-z_$]*\\)" 1)))
  (when (and buffer-file-name (not (or (file-exists-p "Makefile") (file-exists-p "makefile"))))
    (setq-local compile-command
                (concat "c25 asm " (shell-quote-argument (file-name-nondirectory buffer-file-name)) " --obj /dev/null --explain"))))

;;;###autoload
(add-to-list 'auto-mode-alist '("\\.\\(?:asm\\|inc\\)\\'" . c25-mode))

;; Places of faults. A fault that names no file gets the place that the command line gives, which stands above it in the buffer.

(defun c25--words ()
  "The words of the commands above point, the last first."
  (let ((end (point)) words)
    (save-excursion
      (goto-char (point-min))
      (while (re-search-forward "^.*\\<c25[^ \t\n]*[ \t].*$" end t)
        (dolist (word (split-string (match-string-no-properties 0)))
          (push (replace-regexp-in-string "\\`['\"]\\|['\"]\\'" "" word) words))))
    words))

(defun c25--argument (words names)
  "The last word of WORDS that one of NAMES stands before.  WORDS has the last word first."
  (let (before found)
    (while (and words (not found))
      (let ((parts (split-string (car words) "=")))
        (when (member (car parts) names)
          (setq found (if (cdr parts) (mapconcat #'identity (cdr parts) "=") before))))
      (setq before (pop words)))
    found))

(defun c25--directory ()
  "The folder that make entered last before point, or that of this buffer."
  (let* ((at (compilation--previous-directory (point)))
         (found (and at (or (get-text-property (1- at) 'compilation-directory) (get-text-property at 'compilation-directory)))))
    (if found (file-name-as-directory (expand-file-name (car found))) default-directory)))

(defun c25--readable (file)
  "FILE, if it is one that can be read."
  (and file (not (equal file "")) (file-regular-p file) (file-readable-p file) file))

(defun c25--line-with (name file)
  "The number of the first line of FILE that has NAME outside comments."
  (with-temp-buffer
    (insert-file-contents file)
    (let ((case-fold-search nil) found
          (pattern (concat "\\(?:^\\|[^0-9A-Za-z_$.\n]\\)" (regexp-quote name) "\\(?:[^0-9A-Za-z_$]\\|$\\)")))
      (while (and (not found) (not (eobp)))
        (unless (looking-at-p "[*;]")
          (let ((end (save-excursion (if (search-forward ";" (line-end-position) t) (1- (point)) (line-end-position)))))
            (save-restriction
              (narrow-to-region (point) end)
              (when (re-search-forward pattern nil t) (setq found (line-number-at-pos nil t))))))
        (forward-line 1))
      found)))

(defun c25--naming (name words)
  "The first file and line that name NAME, in the command file and then in the other files of WORDS."
  (let (place)
    (dolist (file (cons (c25--argument words '("--command" "link")) (reverse words)) place)
      (when (and (not place) (c25--readable file) (not (equal file name)))
        (let ((line (c25--line-with name file)))
          (when line (setq place (cons file line))))))))

(defun c25--explained (where what)
  "The file and line that --explain prints in the line after the fault, which may also be one of make.
So the line is WHAT or the file is WHERE, as the fault has them, or the fault names a section and has neither."
  (save-excursion
    (let ((names-section (looking-at-p "link:.*: 7[2-58] ")))
      (forward-line 1)
      (when (and (looking-at "\\(.+?\\):\\([0-9]+\\): ") (c25--readable (match-string-no-properties 1))
                 (or names-section (equal (match-string-no-properties 2) what) (equal (match-string-no-properties 1) where)))
        (cons (match-string-no-properties 1) (string-to-number (match-string 2)))))))

(defconst c25--names
  '(("command" "--command" "link") ("schedule" "--schedule") ("samples" "--samples") ("script" "--script") ("hex" "dis") ("stdin" "<"))
  "What a fault of a line is printed with, and the words that stand before its file on the command line.")

(defun c25--place ()
  "The file and line of the fault that was matched: its first group is what stands for a file, its second a line or a name."
  (let ((where (match-string-no-properties 1)) (what (match-string-no-properties 2)))
    (save-match-data
      (save-excursion
        (goto-char (match-beginning 0))
        (let ((default-directory (c25--directory)))
          (or (c25--explained where what)
              (let* ((words (c25--words)) (names (cdr (assoc where c25--names))) (file (and names (c25--argument words names))))
                (cond ((c25--readable file) (cons file (string-to-number what)))
                      ((not names) (c25--naming (or what where) words))))))))))

(defun c25--file ()
  "The file of a fault.  Where there is no place it is what stands for a file, and Emacs asks where that is if it is not there."
  (or (car (c25--place)) (match-string-no-properties 1)))

(defun c25--line ()
  "The line of a fault."
  (or (cdr (c25--place)) 1))

(defun c25--parse-again (buffer _status)
  "Read the output of BUFFER anew at its end: what --explain prints may have come after the fault was read."
  (with-current-buffer buffer
    (save-excursion
      (goto-char (point-min))
      (when (re-search-forward "\\<c25\\>" nil t)
        (setq compilation-num-errors-found 0 compilation-num-warnings-found 0 compilation-num-infos-found 0)
        (compilation--flush-parse (point-min) (point-max))
        (compilation--ensure-parse (point-max))))))

(add-hook 'compilation-finish-functions #'c25--parse-again)

;; The rules cover the lines that --explain prints after a fault's line, so that each fault is one place to go to.  The last rule is
;; the first one that is tried.
(dolist (rule
         `((c25-at "^[0-9A-F]\\{4\\} .* \\([^ \n]+\\):\\([0-9]+\\)$" 1 2 nil 1)
           (c25-from "^  from \\(.+?\\):\\([0-9]+\\): " 1 2 nil 0)
           (c25-unread "^\\(.+\\): 8 CannotRead\\(?:\n\\1:[0-9]+: .*\\)?$" c25--file c25--line nil 2)
           (c25-link "^\\(link\\):\\(.+\\): 7[0-9] [A-Z][A-Za-z]+\\(?:\n[^ :\n]+:[0-9]+: .*\\)?$" c25--file c25--line nil 2)
           (c25 "^\\(.+?\\):\\([0-9]+\\): [0-9]+ [A-Z][A-Za-z]+\\(?:\n\\1:\\2: .*\\)?$" 1 2 nil 2)
           (c25-named ,(concat "^\\(command\\|schedule\\|samples\\|script\\|hex\\|stdin\\):\\([0-9]+\\): [0-9]+ [A-Z][A-Za-z]+"
                               "\\(?:\n.+?:\\2: .*\\(?:\n.+?:\\2: \\(?:column \\([0-9]+\\): \\)?.*\\)?\\)?$")
                      c25--file c25--line 3 2)))
  (setf (alist-get (car rule) compilation-error-regexp-alist-alist) (cdr rule))
  (setq compilation-error-regexp-alist (cons (car rule) (delq (car rule) compilation-error-regexp-alist))))

(provide 'c25-mode)
;;; c25-mode.el ends here
