@echo off
rem Plays the captures of this folder, and compares every byte of what comes of them with what is stored.
rem
rem     selftest.cmd [PROGRAM]
rem
rem PROGRAM is psxgpu_tool.exe; without it, that of the folder above. The script prints one line: how many outputs are
rem the same, the program's version, the system and the processor. Status: 0 all is the same, 1 something differs, 2 the
rem program does not run.
setlocal
set "program=%~f1"
if "%~1"=="" set "program=%~dp0..\psxgpu_tool.exe"
set "out=%TEMP%\psxgpu-selftest-%RANDOM%.out"
pushd "%~dp0"
set "version="
"%program%" --version > "%out%"
for /f "usebackq delims=" %%v in ("%out%") do if not defined version set "version=%%v"
if not defined version goto :silent
set count=0
set same=0
set "wrong="
for %%f in (*.capture) do for %%c in (sums play) do call :try %%~nf %%c
del "%out%"
for /f "delims=" %%s in ('ver') do set "system=%%s"
set "processor=%PROCESSOR_IDENTIFIER%"
set "key=HKLM\HARDWARE\DESCRIPTION\System\CentralProcessor\0"
for /f "tokens=2*" %%a in ('reg query %key% /v ProcessorNameString 2^> nul') do set "processor=%%b"
if defined wrong set "wrong= (different:%wrong%)"
set "machine=%system% %PROCESSOR_ARCHITECTURE%, %processor%"
echo psxgpu selftest: %same% of %count% outputs are the same%wrong%: %version%, %machine%
popd
if %count% equ 0 exit /b 1
if %same% neq %count% exit /b 1
exit /b 0

:silent
del "%out%"
popd
echo psxgpu selftest: %program% does not run: name the program, as in selftest.cmd psxgpu_tool.exe 1>&2
exit /b 2

rem Plays the capture of name %1 by the command %2, and compares with what is stored.
:try
set /a count+=1 > nul
"%program%" %2 < %1.capture > "%out%"
if %errorlevel% neq 0 goto :wrong
fc /b "%out%" %1.%2 > nul
if %errorlevel% neq 0 goto :wrong
set /a same+=1 > nul
exit /b 0
:wrong
set "wrong=%wrong% %1.%2"
exit /b 0
